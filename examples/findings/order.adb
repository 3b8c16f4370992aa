procedure Clear (X : out Integer)
is
begin
   X := 0;
end Clear;
procedure Copy (A : in Integer; X : out Integer)
--# derives X from A;
is
begin
   X := B;
end Copy;
