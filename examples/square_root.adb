-- The integer square root of any Natural, with all that it promises: Root * Root is not above Number, and the next square is. All
-- conditions are proved. The second exit is never taken. It bounds Tried, and there the postcondition follows from the bounds:
-- 46_341 squared is above every Natural. That square is no Integer, and so squares are computed in a wider type.
procedure Square_Root (Number : in Natural; Root : out Natural)
--# derives Root from Number;
--# post Number >= Root * Root and Number < (Root + 1) * (Root + 1);
is
   subtype Root_Range is Natural range 0 .. 46_340;
   type Wide is range 0 .. 2 ** 32;
   Tried : Root_Range := 0;
begin
   loop
      --# assert Number >= Tried * Tried;
      exit when Wide (Number) < Wide (Tried + 1) * Wide (Tried + 1);
      exit when Tried >= 46_340;
      Tried := Tried + 1;
   end loop;
   Root := Tried;
end Square_Root;
