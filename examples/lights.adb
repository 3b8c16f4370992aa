procedure Next_Phase (Elapsed : in Natural; Phase : in out Natural; Wait : out Natural)
--# derives Phase from Phase, Elapsed & Wait from Phase, Elapsed;
--# pre Phase in 0 .. 3;
is
   type Light is (Red, Red_And_Amber, Green, Amber);
   subtype Seconds is Natural range 2 .. 30;
   Now : Light;
   Left : Seconds := 2;
begin
   Now := Light'Val (Phase);
   if Elapsed >= 30 then
      if Now < Amber then
         Now := Light'Succ (Now);
      else
         Now := Red;
      end if;
   end if;
   case Now is
      when Red | Green =>
         Left := 30;
      when Red_And_Amber | Amber =>
         null;
   end case;
   Phase := Light'Pos (Now);
   Wait := Left;
end Next_Phase;
