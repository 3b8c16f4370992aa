procedure Inc (X : in out Integer)
--# derives X from X;
begin
   X := X + 1;
end Inc;
