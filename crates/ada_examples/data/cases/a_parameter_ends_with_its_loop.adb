procedure Main is
   N : Integer := 0;
begin
   for I in 1 .. 2 loop
      N := I;
   end loop;
   N := I;
end Main;
