-- A switch between three modes, which goes to the first of them whenever it is not safe, and to work only from idle.
-- What was needed: the promise on safety as an `or`, and a range in place of two choices, since no cases are tried.
procedure Mode_Switch (Wanted : in Integer; Is_Safe : in Boolean; Mode : in out Integer)
--# derives Mode from *, Wanted, Is_Safe;
--# pre Mode in 0 .. 2;
--# post Mode in 0 .. 2 and (Is_Safe or Mode = 0);
is
   Off  : constant := 0;
   Idle : constant := 1;
   Work : constant := 2;
begin
   if not Is_Safe then
      Mode := Off;
   else
      case Wanted is
         when Off .. Idle =>
            Mode := Wanted;
         when Work =>
            if Mode /= Off then
               Mode := Work;
            end if;
         when others =>
            null;
      end case;
   end if;
end Mode_Switch;
