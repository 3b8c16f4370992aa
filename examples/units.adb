procedure Travel (Speed, Seconds : in Integer; Metres : out Integer)
--# derives Metres from Speed, Seconds;
--# pre Speed in 0 .. 1_000 and Seconds in 0 .. 10_000_000;
is
   type Metres_Per_Second is range 0 .. 1_000;
   type Distance is range 0 .. 10 ** 10;
   Most : constant := 2 * 10 ** 9;
   Pace : Metres_Per_Second;
   Way : Distance;
begin
   Pace := Metres_Per_Second (Speed);
   Way := Distance (Pace) * Distance (Seconds);
   if Way > Most then
      Way := Most;
   end if;
   Metres := Integer (Way);
end Travel;
