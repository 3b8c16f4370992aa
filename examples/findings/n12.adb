procedure Limit (X : out Integer)
--# derives X from;
is
begin
   X := Integer'Last + 1;
end Limit;
