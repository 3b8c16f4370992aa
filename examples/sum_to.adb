-- The sum of the numbers up to Last, which its invariant states by twice the sum. Seven conditions are proved. Three stay open, since the
-- simplifier knows bounds of single terms and does no algebra:
--  * overflow of Sum + Number: that Sum is at most 500_500 follows from the invariant, by the product in it;
--  * the assertion after a turn, and the postcondition after the last one: both are the equation of the invariant once more.
procedure Sum_To (Last : in Natural; Sum : out Natural)
--# derives Sum from Last;
--# pre Last <= 1_000;
--# post 2 * Sum = Last * (Last + 1);
is
begin
   Sum := 0;
   for Number in Natural range 1 .. Last loop
      Sum := Sum + Number;
      --# assert 2 * Sum = Number * (Number + 1);
   end loop;
end Sum_To;
