-- A state machine with `case`: the door of a lift, called once a tenth of a second. State is the position of a Phase, since the
-- formals of a procedure have the types that are declared everywhere. All conditions are proved: the state stays one of the four,
-- and the motor never closes the door (Motor = -1) while something blocks it.
procedure Door (Button, Blocked : in Boolean; Elapsed : in Natural; State : in out Natural; Motor : out Integer)
--# derives State, Motor from State, Button, Blocked, Elapsed;
--# pre State in 0 .. 3;
--# post State in 0 .. 3 and Motor in -1 .. 1 and (Blocked -> Motor >= 0);
is
   type Phase is (Closed, Opening, Open, Closing);
   Now : Phase;
begin
   Now := Phase'Val (State);
   Motor := 0;
   case Now is
      when Closed =>
         if Button then
            Now := Opening;
            Motor := 1;
         end if;
      when Opening =>
         if Elapsed >= 30 then
            Now := Open;
         else
            Motor := 1;
         end if;
      when Open =>
         if Elapsed >= 50 and not Blocked then
            Now := Closing;
            Motor := -1;
         end if;
      when Closing =>
         if Blocked then
            Now := Opening;
            Motor := 1;
         elsif Button then
            Now := Opening;
            Motor := 1;
         elsif Elapsed >= 30 then
            Now := Closed;
         else
            Motor := -1;
         end if;
   end case;
   State := Phase'Pos (Now);
end Door;
