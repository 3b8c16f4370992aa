procedure Clear (A : in Integer; X : out Integer)
--# derives X from A;
is
   subtype Range_Of_A is Integer range 0 .. A;
begin
   X := A;
end Clear;
