procedure Any (A, B, C : in Boolean; X : out Boolean)
--# derives X from A, B, C;
is
begin
   X := A and B or C;
end Any;
