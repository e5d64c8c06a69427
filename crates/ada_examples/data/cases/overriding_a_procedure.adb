with Ada.Text_IO;
procedure Main is
overriding procedure One is begin null; end One;
begin One; end Main;
