with Ada.Text_IO;
procedure Main is
procedure One is begin null; end One;
procedure One is begin null; end One;
begin One; end Main;
