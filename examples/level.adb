procedure Raise_By (Step : in Integer; Level : in out Integer)
--# derives Level from Level, Step;
--# pre Level in 0 .. 100 and Step in 0 .. 100;
is
   Most : constant := 100;
   subtype Percent is Integer range 0 .. Most;
   subtype Double is Integer range 0 .. 2 * Most;
   Sum : Double;
   Result : Percent;
begin
   Sum := Level + Step;
   if Sum > Most then
      Result := Most;
   else
      Result := Sum;
   end if;
   Level := Result;
end Raise_By;
