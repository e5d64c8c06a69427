with Ada.Text_IO;
procedure Main is
Big : exception; Small : exception;
begin
raise Small;
exception
when Big | Program_Error => Ada.Text_IO.Put_Line ("big");
when Constraint_Error | Small => Ada.Text_IO.Put_Line ("small");
when others => Ada.Text_IO.Put_Line ("other");
end Main;
