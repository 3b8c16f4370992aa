procedure Copy (A : in Integer; X : out Integer)
--# derives X from A;
is
   T : Integer;
begin
   X := A + T;
end Copy;
