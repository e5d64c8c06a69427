with Ada.Text_IO;
procedure Main is
N : Integer := 2147483647 + 1 - 1;
begin
Ada.Text_IO.Put_Line ("declared");
end Main;
