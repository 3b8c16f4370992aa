procedure Clear (X : out Integer)
is
begin
   X := 0;
end Clear;
