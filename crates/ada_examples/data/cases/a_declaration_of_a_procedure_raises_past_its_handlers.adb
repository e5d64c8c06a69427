with Ada.Text_IO;
procedure Main is
procedure Fails (N : Integer) is M : Integer := 1 / N; begin Ada.Text_IO.Put_Line (Integer'Image (M)); exception when others => Ada.Text_IO.Put_Line ("not here"); end Fails;
begin Fails (1); Fails (0); exception when others => Ada.Text_IO.Put_Line ("here"); end Main;
