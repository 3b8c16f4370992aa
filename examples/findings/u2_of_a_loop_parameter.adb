procedure Last_Of (Count : in Integer; X : out Integer)
--# derives X from Count;
is
begin
   X := 0;
   for Next in Integer range 1 .. Count loop
      Next := Next + 1;
      X := Next;
   end loop;
end Last_Of;
