with Ada.Text_IO;
procedure Main is
N : Integer := 7;
begin
Ada.Text_IO.Put_Line (Integer'Image (-N * 2 + 3 - 4));
Ada.Text_IO.Put_Line (Integer'Image (2 + 3 * 4));
Ada.Text_IO.Put_Line (Integer'Image ((2 + 3) * 4));
Ada.Text_IO.Put_Line (Integer'Image (20 - 3 - 4));
Ada.Text_IO.Put_Line (Integer'Image (100 / 5 * 2));
Ada.Text_IO.Put_Line (Integer'Image (100 mod 7 * 2));
end Main;
