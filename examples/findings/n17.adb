procedure Drive (Speed : in Integer; Go : out Boolean)
--# derives Go from Speed;
is
   type Light is (Red, Yellow, Green);
   Now : Light := Green;
begin
   if Speed > 50 then
      Now := Yellow;
   end if;
   case Now is
      when Green =>
         Go := True;
      when Red =>
         Go := False;
   end case;
end Drive;
