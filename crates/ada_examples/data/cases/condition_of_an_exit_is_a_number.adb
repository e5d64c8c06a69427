procedure Main is begin
loop exit when (2); end loop; end Main;
