with Ada.Text_IO;
procedure Main is
   X : Integer := 2;
begin
   for X in X .. X + 1 loop
      Ada.Text_IO.Put_Line (Integer'Image (X));
   end loop;
   Ada.Text_IO.Put_Line (Integer'Image (X * 10));
end Main;
