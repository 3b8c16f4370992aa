-- A checksum over a range: Fletcher's two sums of the numbers First .. Last, each number modulo 255. All conditions are proved
-- without an assertion, since the subtype of both sums says what each turn needs. Where First is above Last there is no turn, and
-- the checksum is 0.
procedure Checksum (First, Last : in Natural; Sum : out Natural)
--# derives Sum from First, Last;
--# post Sum <= 254 * 256 + 254;
is
   subtype Residue is Natural range 0 .. 254;
   Low, High : Residue := 0;
begin
   for Number in Natural range First .. Last loop
      Low := (Low + Number mod 255) mod 255;
      High := (High + Low) mod 255;
   end loop;
   Sum := 256 * High + Low;
end Checksum;
