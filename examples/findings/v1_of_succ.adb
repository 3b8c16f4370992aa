procedure Next (Code : in Natural; Step : out Natural)
--# derives Step from Code;
--# pre Code in 0 .. 2;
is
   type Light is (Red, Yellow, Green);
   Now : Light;
begin
   Now := Light'Val (Code);
   Now := Light'Succ (Now);
   Step := Light'Pos (Now);
end Next;
