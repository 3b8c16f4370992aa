-- The leap-year rule of the Gregorian calendar. The postcondition is the rule in both directions, as two implications: what a leap
-- year is, and what another year is. All conditions are proved. An `if` that begins with Year mod 400 = 0 would be right too, but
-- then one condition stays open: that a multiple of 400 is one of 4 is arithmetic that the simplifier does not do.
procedure Leap_Year (Year : in Positive; Leap : out Boolean; Days : out Positive)
--# derives Leap, Days from Year;
--# post (Leap -> (Year mod 4 = 0 and (Year mod 100 /= 0 or Year mod 400 = 0)))
--#      and (not Leap -> (Year mod 4 /= 0 or (Year mod 100 = 0 and Year mod 400 /= 0)))
--#      and Days in 365 .. 366;
is
begin
   if Year mod 4 /= 0 then
      Leap := False;
   elsif Year mod 100 /= 0 then
      Leap := True;
   else
      Leap := Year mod 400 = 0;
   end if;
   if Leap then
      Days := 366;
   else
      Days := 365;
   end if;
end Leap_Year;
