procedure Next_Power (Limit : in Integer; Power : out Integer)
--# derives Power from Limit;
is
   Found : Integer;
   Next : Integer := 1;
begin
   while Next < Limit loop
      Found := Next;
      Next := Limit;
   end loop;
   Power := Found;
end Next_Power;
