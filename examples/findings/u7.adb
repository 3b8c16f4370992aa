procedure Inc (X : in out Integer)
--# derives X from X, X;
is
begin
   X := X + 1;
end Inc;
