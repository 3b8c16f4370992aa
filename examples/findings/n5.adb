procedure Inc (X : in out Integer)
--# derives X from X;
is
begin
   X := X + 1;
end Dec;
