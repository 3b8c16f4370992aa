procedure Inc (X : in Integer)
--# derives X from X;
is
begin
   X := X + 1;
end Inc;
