with Ada.Text_IO;
procedure Main is
procedure One is begin null; end One;
type R is record V : Integer := 0; end record;
begin One; end Main;
