procedure Clamp (Value : in out Integer; Clipped : out Boolean)
--# derives Value from Value & Clipped from Value;
--# post Value >= 0 and Value <= 100;
is
begin
   Clipped := Value not in 0 .. 100;
   if Value < 0 then
      Value := 0;
   elsif Value > 100 then
      Value := 100;
   end if;
   --# check Value in 0 .. 100;
end Clamp;
