procedure Store (Value : in Integer; Place : out Integer)
--# derives Place from Value;
--# post Place = Value~;
is
begin
   Place := Value;
end Store;
