procedure Tick (Count : in out Integer; Before : out Integer)
is
   Old : Integer;
begin
   Old := Count;
   Count := Count + 1;
end Tick;
