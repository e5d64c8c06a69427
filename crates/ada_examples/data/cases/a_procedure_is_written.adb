with Ada.Text_IO;
procedure Main is
procedure One is begin null; end One;
X : Integer := One;
begin One; end Main;
