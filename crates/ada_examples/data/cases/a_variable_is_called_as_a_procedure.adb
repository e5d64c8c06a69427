with Ada.Text_IO;
procedure Main is
X : Integer := 1;
begin X (1); end Main;
