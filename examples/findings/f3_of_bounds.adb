procedure Copy (A : in Integer; X : out Integer)
--# derives X from A;
is
begin
   X := A;
   for Next in Integer range 1 .. 10 loop
      null;
   end loop;
end Copy;
