with Ada.Text_IO;
procedure Main is
begin
   for I in 2 .. 1 loop
      Ada.Text_IO.Put_Line (Integer'Image (I));
   end loop;
   Ada.Text_IO.Put_Line ("behind");
end Main;
