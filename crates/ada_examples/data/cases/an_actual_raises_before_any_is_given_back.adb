with Ada.Text_IO;
procedure Main is
procedure Set (A : in out Integer; N : Integer) is begin A := N; end Set;
X : Integer := 1;
begin Set (X, 1 / (X - 1));
exception when Constraint_Error => Ada.Text_IO.Put_Line (Integer'Image (X));
end Main;
