procedure Count_Up (Count : in out Natural)
--# derives Count from Count;
is
begin
   loop
      if Count >= 100 then
         exit;
      else
         Count := Count + 1;
      end if;
   end loop;
end Count_Up;
