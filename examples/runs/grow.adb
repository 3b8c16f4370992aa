-- A precondition that computes a number of more than 128 bits where X is 2. All conditions are proved.
procedure Grow (X : in Positive; Y : out Integer)
--# derives Y from X;
--# pre X ** 200 > 0;
is
begin
   Y := X;
end Grow;
