procedure Tick (Count : in out Integer; Before : out Integer)
--# derives Count, Before from Count;
--# pre Count < Integer'Last;
--# post Count = Count~ + 1 and Before = Count~;
is
   Old : Integer;
begin
   Old := Count;
   Count := Count + 1;
   Before := Old;
end Tick;
