with Ada.Text_IO;
procedure Main is
B : Boolean := True;
begin
B := False and then 1 / 0 = 1;
B := True or else 1 / 0 = 1;
Ada.Text_IO.Put_Line ("not evaluated");
B := False xor 1 / 0 = 1;
end Main;
