procedure Copy (A : in Integer; X : out Integer)
--# derives X from A;
is
begin
   X := A;
   A := 0;
end Copy;
