procedure Larger (A, B : in Integer; X, Y : out Integer)
--# derives X from A & Y from B;
is
begin
   Y := B;
   if B > A then
      X := 1;
   else
      X := A;
   end if;
end Larger;
