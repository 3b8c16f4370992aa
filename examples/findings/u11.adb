procedure Clear (X : out Integer)
--# derives X from;
--# pre X > 0;
is
begin
   X := 0;
end Clear;
