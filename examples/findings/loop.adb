procedure Drain (Level : in out Natural)
--# derives Level from Level;
--# pre Level <= 100;
is
begin
   while Level > 0 loop
      --# assert Level <= 100;
      Level := Level - 1;
   end loop;
end Drain;
