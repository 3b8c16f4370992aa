procedure Mean (Sum, Count : in Natural; Result : out Integer; Exact : out Boolean)
--# derives Result, Exact from Sum, Count;
is
begin
   Exact := Count > 0 and then Sum mod Count = 0;
   if Count > 0 then
      Result := Sum / Count;
   else
      Result := 0;
   end if;
end Mean;
