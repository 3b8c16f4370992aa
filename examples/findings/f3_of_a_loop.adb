procedure Copy (A : in Integer; X : out Integer)
--# derives X from A;
is
begin
   X := A;
   while A < 0 loop
      null;
   end loop;
end Copy;
