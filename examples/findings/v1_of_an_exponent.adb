procedure Raise_To (A, B : in Integer; X : out Integer)
--# derives X from A, B;
is
begin
   X := A ** B;
end Raise_To;
