-- A loop over a type: what each turn begins with is the condition of the loop, and it is said by an assertion. After the loop
-- the condition is false, which with the type of Count gives the postcondition. All conditions are proved.
procedure Count_Down (Count : in out Natural)
--# derives Count from Count;
--# post Count = 0;
is
begin
   while Count > 0 loop
      --# assert Count > 0;
      Count := Count - 1;
   end loop;
end Count_Down;
