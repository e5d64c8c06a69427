with Ada.Text_IO;
procedure Main is
First : Integer := -2147483647 - 1;
begin
Ada.Text_IO.Put_Line (Integer'Image (First rem (-1)));
Ada.Text_IO.Put_Line (Integer'Image (First mod (-1)));
Ada.Text_IO.Put_Line (Integer'Image (First / (-1)));
end Main;
