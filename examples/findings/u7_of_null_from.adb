procedure Copy (A, B : in Integer; X : out Integer)
--# derives X from A & null from B & null from B;
is
begin
   X := A;
end Copy;
