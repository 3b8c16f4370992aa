procedure Clear (X : out Natural)
--# derives X from;
is
   Start : constant Natural := -1;
begin
   X := Start;
end Clear;
