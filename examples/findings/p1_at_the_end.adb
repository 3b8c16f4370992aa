procedure Inc (X : in out Integer)
--# derives X from X;
