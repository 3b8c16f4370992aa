procedure Clear (X : out Integer)
--# derives X from;
is
   type Digit is range 9 .. 0;
begin
   X := 0;
end Clear;
