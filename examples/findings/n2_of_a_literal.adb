procedure Stop (Go : in Boolean; X : out Boolean)
--# derives X from Go;
is
   type Light is (Red, Go);
begin
   X := not Go;
end Stop;
