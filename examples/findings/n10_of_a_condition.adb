procedure Limit (X : in out Integer)
--# derives X from X;
is
begin
   if X then
      X := 0;
   end if;
end Limit;
