-- One step of a controller with a proportional, an integral and a differential part, all of them bounded.
-- What was needed: an assertion before the sum, with the range of each part, so that what follows has short conditions.
procedure Pid_Step (Wanted, Measured, Last_Error : in Integer; Sum : in out Integer; Output : out Integer)
--# derives Sum from *, Wanted, Measured & Output from Wanted, Measured, Last_Error, Sum;
--# pre Wanted in 0 .. 1_000 and Measured in 0 .. 1_000 and Last_Error in -1_000 .. 1_000 and Sum in -10_000 .. 10_000;
--# post Output in -100 .. 100 and Sum in -10_000 .. 10_000;
is
   Error : Integer;
   Power : Integer;
begin
   Error := Wanted - Measured;
   Sum := Sum + Error;
   if Sum > 10_000 then
      Sum := 10_000;
   elsif Sum < -10_000 then
      Sum := -10_000;
   end if;
   --# assert Error in -1_000 .. 1_000 and Sum in -10_000 .. 10_000 and Last_Error in -1_000 .. 1_000;
   Power := (4 * Error + Sum / 8 + 2 * (Error - Last_Error)) / 16;
   if Power > 100 then
      Power := 100;
   elsif Power < -100 then
      Power := -100;
   end if;
   Output := Power;
end Pid_Step;
