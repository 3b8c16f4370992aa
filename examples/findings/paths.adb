procedure Count (A : in Integer; X : in out Integer)
--# derives X from X, A;
is
begin
   if A > 1 then X := 1; end if;
   if A > 2 then X := 2; end if;
   if A > 3 then X := 3; end if;
   if A > 4 then X := 4; end if;
   if A > 5 then X := 5; end if;
   if A > 6 then X := 6; end if;
   if A > 7 then X := 7; end if;
   if A > 8 then X := 8; end if;
   if A > 9 then X := 9; end if;
   if A > 10 then X := 10; end if;
   if A > 11 then X := 11; end if;
   if A > 12 then X := 12; end if;
   if A > 13 then X := 13; end if;
end Count;
