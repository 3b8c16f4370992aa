-- A watchdog: it counts the turns without a sign of life, up to five, and then gives an alarm.
-- What was needed: the alarm is set in two arms, so that `<->` closes in each of them.
procedure Watchdog (Alive : in Boolean; Missed : in out Integer; Alarm : out Boolean)
--# derives Missed from *, Alive & Alarm from Missed, Alive;
--# pre Missed in 0 .. 5;
--# post Missed in 0 .. 5 and (Alarm <-> Missed >= 5);
is
begin
   if Alive then
      Missed := 0;
   elsif Missed < 5 then
      Missed := Missed + 1;
   end if;
   if Missed >= 5 then
      Alarm := True;
   else
      Alarm := False;
   end if;
end Watchdog;
