procedure Integer_Root (Square : in Natural; Root : out Natural)
--# derives Root from Square;
--# pre Square <= 10_000;
--# post Root <= 100 and Root * Root <= Square;
is
begin
   Root := 0;
   while Root < 100 and then (Root + 1) * (Root + 1) <= Square loop
      --# assert Root < 100 and (Root + 1) * (Root + 1) <= Square;
      Root := Root + 1;
   end loop;
end Integer_Root;
