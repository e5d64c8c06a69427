with Ada.Text_IO;
procedure Main is
procedure Below (N : Integer) is
begin
for I in 1 .. 9 loop declare M : Integer := I; begin if M > N then return; end if; Ada.Text_IO.Put_Line (Integer'Image (M)); end; end loop;
Ada.Text_IO.Put_Line ("never");
end Below;
begin Below (2); Ada.Text_IO.Put_Line ("back"); end Main;
