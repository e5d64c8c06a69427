with Ada.Text_IO;
procedure Main is
E : exception;
begin
raise E;
exception
when others | E => Ada.Text_IO.Put_Line ("first");
when E | E => Ada.Text_IO.Put_Line ("second");
end Main;
