with Ada.Text_IO;
procedure Main is
procedure Two (A : Integer; B : Integer) is begin Ada.Text_IO.Put_Line (Integer'Image (A)); Ada.Text_IO.Put_Line (Integer'Image (B)); end Two;
Z : Integer := 0;
begin Two (1, 2); Two (3, 4 / Z); exception when Constraint_Error => Ada.Text_IO.Put_Line ("zero"); end Main;
