procedure Grade (Points : in Natural; Mark : out Integer)
--# derives Mark from Points;
is
begin
   case Points is
      when 0 .. 49 =>
         Mark := 5;
      when 49 .. 100 =>
         Mark := 1;
      when others =>
         Mark := 0;
   end case;
end Grade;
