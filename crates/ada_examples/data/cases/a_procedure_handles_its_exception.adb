with Ada.Text_IO;
procedure Main is
procedure Safe (N : Integer) is begin Ada.Text_IO.Put_Line (Integer'Image (6 / N)); exception when Constraint_Error => Ada.Text_IO.Put_Line ("none"); end Safe;
begin Safe (2); Safe (0); Safe (3); end Main;
