procedure Copy (A : in Integer; X : out Integer)
--# derives X from A;
is
   Most : constant Integer := 100;
begin
   X := A;
   Most := 0;
end Copy;
