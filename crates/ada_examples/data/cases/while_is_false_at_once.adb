with Ada.Text_IO; procedure Main is N : Integer := 0;
begin while N > 0 loop Ada.Text_IO.Put_Line ("turn"); end loop; Ada.Text_IO.Put_Line ("behind"); end Main;
