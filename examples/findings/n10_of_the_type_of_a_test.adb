procedure Test (A : in Boolean; X : out Boolean)
--# derives X from A;
is
begin
   X := A in Boolean;
end Test;
