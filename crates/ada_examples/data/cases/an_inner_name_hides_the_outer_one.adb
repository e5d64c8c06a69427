with Ada.Text_IO;
procedure Main is
   X : Integer := 1;
begin
   declare
      Y : Integer := X + 1;
      X : Integer := 10;
   begin
      Ada.Text_IO.Put_Line (Integer'Image (X + Y));
      X := X + 1;
      Ada.Text_IO.Put_Line (Integer'Image (X));
   end;
   Ada.Text_IO.Put_Line (Integer'Image (X));
end Main;
