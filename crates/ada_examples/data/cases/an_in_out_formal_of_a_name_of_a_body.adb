with Ada.Text_IO;
procedure Main is
procedure One (A : in out Integer) is A : Integer := 2; begin null; end One;
begin null; end Main;
