with Ada.Text_IO;
procedure Main is
N : Integer := 1 / 0;
begin
N := 0;
exception
when others => Ada.Text_IO.Put_Line ("handled");
end Main;
