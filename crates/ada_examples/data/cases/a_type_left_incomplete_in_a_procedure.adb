with Ada.Text_IO;
procedure Main is
procedure One is type T; begin null; end One;
begin One; end Main;
