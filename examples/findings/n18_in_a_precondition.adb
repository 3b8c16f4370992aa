procedure Inc (X : in out Integer)
--# derives X from X;
--# pre X~ < Integer'Last;
is
begin
   X := X + 1;
end Inc;
