procedure Inc (X : in out Integer)
--# derives X from X;
is
begin
   X := Y + 1;
end Inc;
