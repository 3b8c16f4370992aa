procedure Step (X : in out Integer)
--# derives X from X;
is
begin
   if X < 0 then
      X := X + 1;
   else
      X := X + 2;
   end if;
   X := X - 4;
end Step;
