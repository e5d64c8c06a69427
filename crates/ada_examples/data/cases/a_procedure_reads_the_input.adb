with Ada.Text_IO; with Run_Input;
procedure Main is
procedure Echo (N : Integer) is M : Integer := 0; begin for I in 1 .. N loop Run_Input.Get (M); Ada.Text_IO.Put_Line (Integer'Image (M)); end loop; end Echo;
begin Echo (2); Echo (1); Echo (1); exception when Run_Input.End_Error => Ada.Text_IO.Put_Line ("end"); end Main;
