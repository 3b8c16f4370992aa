procedure Clear (X : in out Integer)
--# derives X from X;
is
begin
   X := 0;
end Clear;
