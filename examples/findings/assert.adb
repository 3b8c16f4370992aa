procedure Lift (Level : in out Natural)
--# derives Level from Level;
--# pre Level < 100;
is
begin
   --# assert Level~ < 100;
   Level := Level + 1;
end Lift;
