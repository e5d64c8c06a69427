with Ada.Text_IO;
procedure Main is
begin
   for I in 1 .. 2 loop
      declare
         N : Integer := I;
      begin
         Ada.Text_IO.Put_Line (Integer'Image (N));
         return;
      end;
   end loop;
   Ada.Text_IO.Put_Line ("not reached");
end Main;
