procedure Share (X : out Integer)
--# derives X from;
is
begin
   X := 1 + 1 / 0;
end Share;
