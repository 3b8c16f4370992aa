procedure Limit (X : in out Integer)
--# derives X from X;
is
begin
   if X < 0 then
      X := 0;
   elsif X > 100 then
      null;
   end if;
end Limit;
