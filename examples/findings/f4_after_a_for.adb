procedure Last_Of (Count : in Integer; X : out Integer)
--# derives X from Count;
is
   Found : Integer;
begin
   for Next in Integer range 1 .. Count loop
      Found := Next;
   end loop;
   X := Found;
end Last_Of;
