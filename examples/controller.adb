-- A saturating controller: a proportional and an integral part, each held within its limits. The integral part stops
-- at its limit, so that it does not wind up while the drive is at its own. All conditions are proved: no sum overflows, and the
-- drive is within 0 .. 100 whatever is measured. The bounds of the locals are in their subtypes.
procedure Regulate (Wanted, Measured : in Integer; Integral : in out Integer; Drive : out Integer)
--# derives Integral from *, Wanted, Measured &
--#         Drive from Integral, Wanted, Measured;
--# pre Wanted in 0 .. 1_000 and Measured in 0 .. 1_000 and Integral in -500 .. 500;
--# post Integral in -500 .. 500 and Drive in 0 .. 100;
is
   subtype Difference is Integer range -1_000 .. 1_000;
   Error : Difference;
begin
   Error := Wanted - Measured;
   Integral := Integral + Error / 4;
   if Integral > 500 then
      Integral := 500;
   elsif Integral < -500 then
      Integral := -500;
   end if;
   Drive := (3 * Error + Integral) / 10;
   if Drive > 100 then
      Drive := 100;
   elsif Drive < 0 then
      Drive := 0;
   end if;
end Regulate;
