with Ada.Text_IO;
procedure Main is
procedure One (True : Boolean) is begin null; end One;
begin One (True); end Main;
