procedure Copy (A : in Integer; X : out Integer)
--# derives X from A;
is
begin
   --# check X = A;
   X := A;
end Copy;
