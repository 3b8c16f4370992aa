-- The middle one of three measured values.
-- What was needed: the range of the values as a precondition. That the result is one of them is a promise with cases.
procedure Middle_Of_Three (A, B, C : in Integer; Middle : out Integer)
--# derives Middle from A, B, C;
--# pre A in 0 .. 1_000 and B in 0 .. 1_000 and C in 0 .. 1_000;
--# post Middle in 0 .. 1_000;
is
begin
   if A <= B then
      if B <= C then
         Middle := B;
      elsif A <= C then
         Middle := C;
      else
         Middle := A;
      end if;
   elsif A <= C then
      Middle := A;
   elsif B <= C then
      Middle := C;
   else
      Middle := B;
   end if;
end Middle_Of_Three;
