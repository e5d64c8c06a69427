with Ada.Text_IO;
procedure Main is
begin
   for I in 2147483646 .. 2147483647 loop
      Ada.Text_IO.Put_Line (Integer'Image (I));
   end loop;
end Main;
