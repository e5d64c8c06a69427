with Ada.Text_IO;
procedure Main is
N : Integer := 0;
begin
Ada.Text_IO.Put_Line (Integer'Image (0 / 1));
Ada.Text_IO.Put_Line (Integer'Image (1 mod N));
end Main;
