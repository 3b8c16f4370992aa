procedure Copy (Natural : in Integer; X : out Integer)
--# derives X from Natural;
is
begin
   X := Natural;
end Copy;
