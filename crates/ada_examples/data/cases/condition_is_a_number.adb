procedure Main is begin
while 1 loop null; end loop; end Main;
