-- A loop without an exit, as of a controller that runs as long as there is power: its Drive follows the Target. All conditions are proved. What
-- would come after the loop is never reached, and a call of this procedure never ends.
procedure Hold (Target : in Natural; Drive : in out Natural)
--# derives Drive from *, Target;
--# pre Drive <= 1000;
is
begin
   loop
      --# assert Drive <= 1000;
      if Drive < Target and Drive < 1000 then
         Drive := Drive + 1;
      elsif Drive > Target and Drive > 0 then
         Drive := Drive - 1;
      end if;
   end loop;
end Hold;
