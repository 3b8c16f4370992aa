-- A search with two exits: Root is the root of a square number, or Found is false. All conditions are proved: each exit sets Found, and what its
-- `if` tests is known after the loop. Without `exit when` in the second place Root + 1 would not stay in its type.
procedure Square_Search (Number : in Natural; Root : out Natural; Found : out Boolean)
--# derives Root, Found from Number;
--# post Found -> Root * Root = Number;
is
   subtype Small is Natural range 0 .. 100;
   Tried : Small := 0;
begin
   loop
      if Tried * Tried = Number then
         Found := True;
         exit;
      end if;
      if Tried >= 100 then
         Found := False;
         exit;
      end if;
      Tried := Tried + 1;
   end loop;
   Root := Tried;
end Square_Search;
