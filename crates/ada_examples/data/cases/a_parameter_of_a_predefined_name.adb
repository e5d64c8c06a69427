procedure Main is
begin
   for True in 1 .. 2 loop
      null;
   end loop;
end Main;
