procedure Main is
begin
   for I in 1 .. 2 loop
      I := 1;
   end loop;
end Main;
