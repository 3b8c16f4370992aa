-- The bin of a histogram to which a measurement belongs. What is below the first bin counts there, and what is above the last one counts in that.
-- So the bin is an index of the array of counts.
procedure Bin_Of (Measured : in Integer; Bin : out Integer)
--# derives Bin from Measured;
--# pre Measured in -1_000 .. 1_000;
--# post Bin in 0 .. 9;
is
   type Count is range 0 .. 1000;
   subtype Number is Integer range 0 .. 9;
   type Histogram is array (Number) of Count;
   Width : constant Integer := 25;
   Counts : Histogram;
   Chosen : Integer;
begin
   Chosen := Measured / Width;
   if Chosen < Counts'First then
      Chosen := Counts'First;
   elsif Chosen > Counts'Last then
      Chosen := Counts'Last;
   end if;
   Bin := Chosen;
end Bin_Of;
