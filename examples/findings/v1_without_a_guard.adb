procedure Divides (A, B : in Integer; X : out Boolean)
--# derives X from A, B;
is
begin
   X := B /= 0 and A rem B = 0;
end Divides;
