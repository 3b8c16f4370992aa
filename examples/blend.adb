procedure Blend (Old, Raw : in Integer; Fresh : out Integer)
--# derives Fresh from Old, Raw;
--# pre Old >= 0 and Old <= 1000;
--# post Fresh >= 0 and Fresh <= 2000;
is
   Part : Integer;
begin
   Part := Raw;
   if Part < 0 then
      Part := 0;
   elsif Part > 1000 then
      Part := 1000;
   end if;
   --# assert Part >= 0 and Part <= 1000;
   Fresh := Old + Part;
end Blend;
