procedure Clear (X : out Boolean)
--# derives X from;
is
begin
   X := Boolean'First;
end Clear;
