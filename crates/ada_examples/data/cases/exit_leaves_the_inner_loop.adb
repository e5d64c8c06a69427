with Ada.Text_IO; procedure Main is N : Integer := 0;
begin loop N := N + 1; loop exit when N > 1; N := N + 10; exit; end loop;
Ada.Text_IO.Put_Line (Integer'Image (N)); if N > 11 then exit; end if; end loop; Ada.Text_IO.Put_Line ("out"); end Main;
