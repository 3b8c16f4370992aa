procedure Limit (A : in Integer; X : out Integer)
--# derives X from A;
is
begin
   if A < 0 then
      X := 0;
   elsif A > 100 then
      X := 100;
   else
      X := A;
   end if;
end Limit;
