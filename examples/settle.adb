-- A loop with half a turn at its end: the exit stands between what each turn begins with and what only a further turn needs. All conditions are
-- proved: after the exit the value is known to be 100 or more.
procedure Settle (Value : in out Natural)
--# derives Value from Value;
--# post Value < 100;
is
begin
   loop
      Value := Value mod 500;
      exit when Value < 100;
      Value := Value - 50;
   end loop;
end Settle;
