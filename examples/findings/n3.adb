procedure Inc (X : in out Integer)
--# derives X from X;
is
begin
   X := Inc + 1;
end Inc;
