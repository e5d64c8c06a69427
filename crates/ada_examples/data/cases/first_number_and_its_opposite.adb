with Ada.Text_IO;
procedure Main is
N : Integer := -2147483647 - 1;
begin
Ada.Text_IO.Put_Line (Integer'Image (N));
Ada.Text_IO.Put_Line (Integer'Image (N / 1));
N := -N;
end Main;
