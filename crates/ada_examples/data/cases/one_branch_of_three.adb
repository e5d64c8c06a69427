with Ada.Text_IO; procedure Main is N : Integer := 0;
begin while N < 4 loop N := N + 1;
if N = 1 then Ada.Text_IO.Put_Line ("one"); elsif N < 4 and then N /= 3 then Ada.Text_IO.Put_Line ("two");
elsif N = 3 then null; else Ada.Text_IO.Put_Line ("more"); end if; end loop; end Main;
