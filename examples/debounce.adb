-- A debouncer: a contact is taken to have changed after five equal samples in a row that differ from what is held. It is called
-- once a sample, and its caller keeps Held and Count. All conditions are proved: Count stays below 5, and Held is what it was or
-- what was sampled.
procedure Debounce (Sample : in Boolean; Held : in out Boolean; Count : in out Natural)
--# derives Held, Count from Held, Count, Sample;
--# pre Count < 5;
--# post Count < 5 and (Held = Held~ or Held = Sample);
is
begin
   if Sample = Held then
      Count := 0;
   elsif Count < 4 then
      Count := Count + 1;
   else
      Held := Sample;
      Count := 0;
   end if;
end Debounce;
