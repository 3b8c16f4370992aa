procedure Less (A, B : in Boolean; X : out Boolean)
--# derives X from A, B;
is
begin
   X := A < B;
end Less;
