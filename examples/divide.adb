-- Division by repeated subtraction, with its invariant and all that it promises. Six conditions are proved. Four stay open, since
-- the simplifier knows bounds of single terms and does no algebra:
--  * overflow of Quotient + 1: that Quotient is at most Dividend follows from the invariant, by the product in it;
--  * range of Remainder - Divisor: it does not take Remainder >= Divisor to say that the difference is not negative;
--  * the assertion after a turn, and the postcondition after some turns: both are the equation of the invariant once more.
procedure Divide (Dividend, Divisor : in Natural; Quotient, Remainder : out Natural)
--# derives Quotient, Remainder from Dividend, Divisor;
--# pre Divisor > 0;
--# post Dividend = Quotient * Divisor + Remainder and Remainder < Divisor;
is
begin
   Quotient := 0;
   Remainder := Dividend;
   while Remainder >= Divisor loop
      --# assert Dividend = Quotient * Divisor + Remainder and Remainder >= Divisor;
      Quotient := Quotient + 1;
      Remainder := Remainder - Divisor;
   end loop;
end Divide;
