procedure Clear (X : out Integer)
--# derives X from;
is
begin
   X := 1;
   X := 0;
end Clear;
