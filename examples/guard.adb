procedure Share (Whole : in Natural; Parts : in Integer; Even : out Boolean)
--# derives Even from Whole, Parts;
is
begin
   Even := Parts /= 0 and then Whole rem Parts = 0;
end Share;
