procedure Share (A, B : in Integer; Q, R : out Integer)
--# derives Q, R from A, B;
is
begin
   Q := A / B;
   R := A rem B;
end Share;
