-- A counter that stays at its ends.
-- What was needed: the test of the bound in the form of the promise, a comparison with a number.
procedure Saturating_Counter (Up, Down : in Boolean; Count : in out Integer)
--# derives Count from *, Up, Down;
--# pre Count in 0 .. 1_000;
--# post Count in 0 .. 1_000;
is
begin
   if Up and not Down then
      if Count < 1_000 then
         Count := Count + 1;
      end if;
   elsif Down and not Up then
      if Count > 0 then
         Count := Count - 1;
      end if;
   end if;
end Saturating_Counter;
