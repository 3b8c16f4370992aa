procedure Sign (A : in Integer; X : out Integer)
--# derives X from A;
is
begin
   X := 0;
   if A < 0 then
      X := -1;
   else
      X := 1;
   end if;
end Sign;
