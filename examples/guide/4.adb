procedure Tick (Count : in out Integer; Before : out Integer)
--# derives Count, Before from *;
is
   Old : Integer;
begin
   Old := Count;
   Count := Count + 1;
end Tick;
