procedure Settle (Value : in out Natural)
--# derives Value from Value;
--# post Value < 100;
is
begin
   loop
      Value := Value mod 500;
      exit when Value < 100;
      Value := Value - 50;
   end loop;
end Settle;
