procedure Tick (Count : in out Integer; Before : out Integer)
--# derives Count, Before from Count;
--# pre Count <= Integer'Last;
is
   Old : Integer;
begin
   Old := Count;
   Count := Count + 1;
   Before := Old;
end Tick;
