procedure Differ (First, Last : in Integer; Result : out Integer)
--# derives Result from First & null from Last;
is
   Next : Integer;
begin
   Next := First;
   Result := 0;
   while Next < Last loop
      Next := First;
      Result := 1;
   end loop;
end Differ;
