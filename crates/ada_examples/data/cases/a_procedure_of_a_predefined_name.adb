with Ada.Text_IO;
procedure Main is
procedure Integer is begin null; end Integer;
begin null; end Main;
