procedure Count (X : in out Integer)
--# derives X from X;
is
   Start : Integer := X;
begin
   X := Start;
end Count;
