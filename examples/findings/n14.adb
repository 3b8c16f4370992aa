procedure Clear (X : out Integer)
--# derives X from;
is
   type Light is (Red, Yellow, Green);
begin
   X := Light'Pos;
end Clear;
