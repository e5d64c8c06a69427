with Ada.Text_IO;
procedure Main is
begin
Ada.Text_IO.Put_Line ("first");
Ada.Text_IO.Put_Line ("second");
Ada.Text_IO.Put_Line ("first");
end Main;
