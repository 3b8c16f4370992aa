procedure Last_Of (Count : in Integer; X : out Integer)
--# derives X from Count;
is
   Next : Integer;
begin
   X := 0;
   for Next in Integer range 1 .. Count loop
      X := Next;
   end loop;
end Last_Of;
