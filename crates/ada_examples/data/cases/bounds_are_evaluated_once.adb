with Ada.Text_IO;
procedure Main is
   Last : Integer := 2;
begin
   for I in 1 .. Last loop
      Last := 5;
      Ada.Text_IO.Put_Line (Integer'Image (I));
   end loop;
   Ada.Text_IO.Put_Line (Integer'Image (Last));
end Main;
