with Ada.Text_IO;
procedure Main is
X : Integer := 1;
procedure One is begin null; end One;
begin One; end Main;
