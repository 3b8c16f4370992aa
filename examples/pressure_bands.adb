-- A search over the values of an enumeration, forward and in reverse. Reached is the last band whose limit the pressure has reached;
-- Ahead is the first one whose limit it has not, or the last band of all. All conditions are proved, by the types of the variables; that
-- Reached keeps its value in the second loop is said by its assertion. Each loop is over a whole type, so that it has a turn.
procedure Pressure_Bands (Pressure : in Natural; Reached, Ahead : out Natural)
--# derives Reached, Ahead from Pressure;
--# post Reached <= 3 and Ahead <= 3;
is
   type Band is (Low, Normal, High, Critical);
   Limit : Natural;
   Found : Band;
begin
   Found := Low;
   for Tried in Band loop
      case Tried is
         when Low => Limit := 0;
         when Normal => Limit := 100;
         when High => Limit := 200;
         when Critical => Limit := 300;
      end case;
      if Pressure >= Limit then
         Found := Tried;
      end if;
   end loop;
   Reached := Band'Pos (Found);
   Found := Critical;
   for Tried in reverse Band loop
      case Tried is
         when Low => Limit := 0;
         when Normal => Limit := 100;
         when High => Limit := 200;
         when Critical => Limit := 300;
      end case;
      if Pressure < Limit then
         Found := Tried;
      end if;
      --# assert Reached <= 3;
   end loop;
   Ahead := Band'Pos (Found);
end Pressure_Bands;
