procedure Both (A : in Integer; X, Y : out Integer)
--# derives X from A & Y from;
is
begin
   X := A;
   Y := X;
end Both;
