-- A whole in parts, for runs with inputs: Part is one of them, rounded down or up. All conditions are proved.
procedure Share (Whole, Parts : in Natural; Round_Up : in Boolean; Part : out Integer)
--# derives Part from Whole, Parts, Round_Up;
--# pre Parts > 0;
is
begin
   Part := Whole / Parts;
   if Round_Up and then Whole mod Parts > 0 and then Part < Integer'Last then
      Part := Part + 1;
   end if;
end Share;
