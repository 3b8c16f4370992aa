procedure Raise_To (Level : in out Natural)
--# derives Level from Level;
is
begin
   loop
      Level := Level + 1;
      exit when Level >= 100;
   end loop;
end Raise_To;
