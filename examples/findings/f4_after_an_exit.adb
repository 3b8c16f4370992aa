procedure First_Over (Limit : in Natural; Found : out Natural)
--# derives Found from Limit;
is
   Next : Natural := 0;
   Last : Natural;
begin
   loop
      exit when Next >= Limit;
      Last := Next;
      Next := Limit;
   end loop;
   Found := Last;
end First_Over;
