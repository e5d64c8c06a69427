with Ada.Text_IO;
procedure Main is
begin
Ada.Text_IO.Put_Line (Integer'Image ((-11) mod 5));
Ada.Text_IO.Put_Line (Integer'Image ((-11) rem 5));
Ada.Text_IO.Put_Line (Integer'Image (11 mod (-5)));
Ada.Text_IO.Put_Line (Integer'Image (11 rem (-5)));
Ada.Text_IO.Put_Line (Integer'Image ((-11) / 5));
Ada.Text_IO.Put_Line (Integer'Image ((-11) mod (-5)));
end Main;
