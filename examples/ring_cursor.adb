-- The cursor of a ring buffer: after the last slot it goes to the first one again. The ends of the array are those of its index, so the guard
-- and the range of the slot agree, however many slots there are.
procedure Advance (Cursor : in out Positive)
--# derives Cursor from Cursor;
--# pre Cursor <= 16;
--# post Cursor in 1 .. 16;
is
   subtype Slot is Integer range 1 .. 16;
   type Ring is array (Slot) of Integer;
   Samples : Ring;
   Next : Slot;
begin
   if Cursor < Samples'Last then
      Next := Cursor + 1;
   else
      Next := Samples'First;
   end if;
   Cursor := Next;
end Advance;
