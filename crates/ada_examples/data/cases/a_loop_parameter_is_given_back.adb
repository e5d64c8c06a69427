with Ada.Text_IO;
procedure Main is
procedure One (A : in out Integer) is begin A := 2; end One;
begin for I in 1 .. 2 loop One (I); end loop; end Main;
