procedure Add_Percent (Step : in Integer; Level : in out Integer)
--# derives Level from Level, Step;
--# pre Level in 0 .. 100 and Step in 0 .. 100;
is
   type Percent is range 0 .. 100;
   Sum : Percent := Percent'Last;
   Now, More : Percent;
begin
   Now := Percent (Level);
   More := Percent (Step);
   if Now + More <= Percent'Last then
      Sum := Now + More;
   end if;
   Level := Integer (Sum);
end Add_Percent;
