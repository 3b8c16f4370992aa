procedure Copy (A : in Integer; X : out Integer)
--# derives X from A;
is
begin
   X := A;
   if A < 0 then
      null;
   end if;
end Copy;
