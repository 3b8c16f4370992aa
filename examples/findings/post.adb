procedure Limit (A : in Integer; X : out Integer)
--# derives X from A;
--# post X <= 100;
is
begin
   if A > 1000 then
      X := 100;
   else
      X := A;
   end if;
end Limit;
