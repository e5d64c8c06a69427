with Ada.Text_IO;
procedure Main is
procedure One (A : Integer) is A : Integer := 1; begin null; end One;
begin One (1); end Main;
