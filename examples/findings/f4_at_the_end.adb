procedure Clear (X : out Integer)
--# derives X from;
is
begin
   null;
end Clear;
