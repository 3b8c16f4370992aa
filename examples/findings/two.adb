procedure Add (X : in out Integer; A : in Integer)
--# derives X from X, A;
--# pre X + A = 0;
is
begin
   X := X + A + 1;
   X := X + A;
end Add;
procedure Exchange (A, B : in out Integer; T : out Integer)
--# derives A from B & B, T from A;
is
begin
   T := A;
   A := B;
   B := T;
end Exchange;
