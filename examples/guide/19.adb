procedure Fill (Strokes : in Natural; Level : out Natural)
--# derives Level from Strokes;
--# post Level <= 100;
is
begin
   Level := 0;
   for Stroke in Natural range 1 .. Strokes loop
      if Level < 100 then
         Level := Level + 1;
      end if;
      --# assert Level <= 100;
   end loop;
end Fill;
