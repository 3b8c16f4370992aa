-- The square of a number by additions: the squares of 1, 2, 3 and so on differ by odd numbers. Eleven conditions are proved, among them
-- that 2 * Root does not overflow, which the subtype of Root says. Three stay open, since what its invariant needs is algebra: the overflow
-- of Square + (2 * Root - 1), the assertion after a turn, and the postcondition after the last one.
procedure Square_Of (Number : in Natural; Square : out Natural)
--# derives Square from Number;
--# pre Number <= 1_000;
--# post Square = Number * Number;
is
   subtype Root_Range is Natural range 0 .. 1_000;
begin
   Square := 0;
   for Root in Root_Range range 1 .. Number loop
      Square := Square + (2 * Root - 1);
      --# assert Square = Root * Root;
   end loop;
end Square_Of;
