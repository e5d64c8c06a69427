with Ada.Text_IO;
procedure Main is
E : exception;
begin
raise Program_Error;
exception
when Program_Error => Ada.Text_IO.Put_Line ("first"); raise E;
when E => Ada.Text_IO.Put_Line ("second");
end Main;
