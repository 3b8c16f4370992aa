procedure Root_Of (Number : in Natural; Root : out Natural; Found : out Boolean)
--# derives Root, Found from Number;
--# post Found -> Root * Root = Number;
is
   subtype Small is Natural range 0 .. 100;
   Tried : Small := 0;
begin
   loop
      if Tried * Tried = Number then
         Found := True;
         exit;
      end if;
      exit when Tried >= 100;
      Tried := Tried + 1;
   end loop;
   Root := Tried;
end Root_Of;
