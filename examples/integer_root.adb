-- The greatest Root up to 100 with Root * Root <= Square. The assertion is the condition of the loop, so that it is proved where a
-- turn begins; the condition of the loop is what the postcondition wants after one more step. All conditions are proved.
-- That no greater root would do is not said: a postcondition Square < (Root + 1) * (Root + 1) would stay open, since the simplifier
-- does not take apart the negation of a conjunction.
procedure Integer_Root (Square : in Natural; Root : out Natural)
--# derives Root from Square;
--# pre Square <= 10_000;
--# post Root <= 100 and Root * Root <= Square;
is
begin
   Root := 0;
   while Root < 100 and then (Root + 1) * (Root + 1) <= Square loop
      --# assert Root < 100 and (Root + 1) * (Root + 1) <= Square;
      Root := Root + 1;
   end loop;
end Integer_Root;
