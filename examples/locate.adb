-- Loops in one another, with exits in each: an exit leaves the loop that it stands in. Row and Column are the digits of Code. All conditions are
-- proved, by the types of the variables and the exits at 9.
procedure Locate (Code : in Natural; Row, Column : out Natural)
--# derives Row, Column from Code;
is
   subtype Digit is Natural range 0 .. 9;
   R : Digit := 0;
   C : Digit;
begin
   loop
      C := 0;
      loop
         exit when 10 * R + C = Code;
         exit when C >= 9;
         C := C + 1;
      end loop;
      exit when 10 * R + C = Code;
      exit when R >= 9;
      R := R + 1;
   end loop;
   Row := R;
   Column := C;
end Locate;
