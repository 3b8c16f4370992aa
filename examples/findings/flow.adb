procedure Exchange (X, Y : in out Integer)
--# derives X from Y & Y from X;
is
   T : Integer;
begin
   T := X;
   X := Y;
   Y := X;
end Exchange;
