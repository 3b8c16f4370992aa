procedure Signal (Speed, Limit : in Natural; Warn : out Boolean)
--# derives Warn from Speed, Limit;
is
   type Light is (Green, Amber, Red);
   Margin : constant := 10;
   Shown : Light;
begin
   if Speed > Limit then
      Shown := Red;
   elsif Speed in Limit - Margin .. Limit then
      Shown := Amber;
   else
      Shown := Green;
   end if;
   Warn := Shown > Green;
end Signal;
