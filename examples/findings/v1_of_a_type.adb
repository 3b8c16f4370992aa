procedure Next (A : in Boolean; X : out Boolean)
--# derives X from A;
is
   type Digit is range 0 .. 9;
   D : Digit;
begin
   if A then
      D := 5;
   else
      D := 9;
   end if;
   D := D + 1;
   X := D > 6;
end Next;
