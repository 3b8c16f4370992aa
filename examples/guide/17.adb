procedure Count_Down (Count : in out Natural)
--# derives Count from Count;
--# post Count = 0;
is
begin
   while Count > 0 loop
      --# assert Count > 0;
      Count := Count - 1;
   end loop;
end Count_Down;
