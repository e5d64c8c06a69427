with Ada.Text_IO;
procedure Main is
B : Boolean := True;
begin
Ada.Text_IO.Put_Line ("before");
B := False and 1 / 0 = 1;
end Main;
