procedure Add (A : in Integer; X : out Integer)
--# derives X from A;
is
   Twice : constant Integer := A * 2;
begin
   X := Twice + 1;
end Add;
