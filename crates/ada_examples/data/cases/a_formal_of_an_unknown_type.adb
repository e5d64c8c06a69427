with Ada.Text_IO;
procedure Main is
procedure One (A : Nothing) is begin null; end One;
begin One (1); end Main;
