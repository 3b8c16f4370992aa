procedure Limit (A : in Integer; X : out Integer)
--# derives X from A;
is
   T : Integer;
begin
   if A < 0 then
      T := 0;
   elsif A <= 100 then
      T := A;
   end if;
   X := T;
end Limit;
