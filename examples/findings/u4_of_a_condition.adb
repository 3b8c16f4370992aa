procedure Count_Up (Count : in out Natural)
--# derives Count from Count;
is
begin
   loop
      if Count > 50 then
         exit when Count >= 100;
      end if;
      Count := Count + 1;
   end loop;
end Count_Up;
