procedure Last_Of (Count : in Integer; X : out Integer)
--# derives X from Count;
is
   subtype Digit is Integer range 0 .. 9;
begin
   X := 0;
   for Next in Digit range 1 .. Count loop
      X := Next + 1;
   end loop;
end Last_Of;
