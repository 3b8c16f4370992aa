procedure Copy (A : in Integer; X : out Integer)
--# derives X from A;
is
begin
   X := A;
   loop
      exit when A < 0;
   end loop;
end Copy;
