procedure Clear (X : out Integer)
--# derives X from;
is
   type Digit is range 0 .. 9;
   D : Digit;
begin
   D := Digit (10);
   X := Integer (D);
end Clear;
