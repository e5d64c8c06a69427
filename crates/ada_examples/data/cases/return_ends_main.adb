with Ada.Text_IO; procedure Main is N : Integer := 0;
begin Ada.Text_IO.Put_Line ("in"); loop if N = 2 then return; end if; N := N + 1; end loop; end Main;
