procedure Main is
begin
   for I in 1 .. True loop
      null;
   end loop;
end Main;
