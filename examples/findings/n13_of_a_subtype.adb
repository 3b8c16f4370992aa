procedure Clear (X : out Integer)
--# derives X from;
is
   type Light is (Red, Yellow, Green);
   subtype Warning is Light range Red .. Yellow;
   subtype Late is Warning range Yellow .. Green;
begin
   X := 0;
end Clear;
