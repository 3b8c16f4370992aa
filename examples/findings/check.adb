procedure Percent (Part, Whole : in Integer; Result : out Integer)
--# derives Result from Part, Whole;
--# pre Part >= 0 and Whole > 0 and Part <= 1000;
is
begin
   --# check Part * 100 <= 100000;
   --# check Part <= Whole;
   Result := (Part * 100) / Whole;
end Percent;
