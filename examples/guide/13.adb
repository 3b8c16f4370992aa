procedure Mean (Sum, Count : in Natural; Result : out Integer)
--# derives Result from Sum, Count;
is
   Divisor : Integer;
begin
   Divisor := Count;
   if Divisor = 0 then
      Divisor := 1;
   end if;
   --# check Divisor > 0;
   Result := Sum / Divisor;
end Mean;
