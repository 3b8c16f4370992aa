procedure Limit (X : in out Integer)
--# derives X from X;
is
   type Percent is range 0 .. 100;
   Most : constant Percent := 80;
begin
   if X > Most then
      X := 80;
   end if;
end Limit;
