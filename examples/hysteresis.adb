-- A heater with two limits: on below the lower one, off above the upper one, and as it was between them.
-- What was needed: each promise as an `or`, since a path on which the left side of an implication is false closes no implication.
procedure Hysteresis (Temperature : in Integer; Heating : in out Boolean)
--# derives Heating from *, Temperature;
--# post (Temperature >= 180 or Heating) and (Temperature <= 220 or not Heating);
is
begin
   if Temperature < 180 then
      Heating := True;
   elsif Temperature > 220 then
      Heating := False;
   end if;
end Hysteresis;
