procedure Look (A : in Integer; X : out Integer)
--# derives X from A;
is
begin
   X := A;
   case A is
      when 0 .. 9 =>
         null;
      when others =>
         null;
   end case;
end Look;
