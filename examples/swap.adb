procedure Swap (X, Y : in out Integer)
--# derives X from Y & Y from X;
--# post X = Y~ and Y = X~;
is
   Old : Integer;
begin
   Old := X;
   X := Y;
   Y := Old;
end Swap;
