with Ada.Text_IO;
procedure Main is
procedure Count (To : Integer) is
N : Integer := 1;
begin while N <= To loop N := N + 1; end loop; Ada.Text_IO.Put_Line (Integer'Image (N)); end Count;
N : Integer := 40;
begin Count (3); Count (0); Ada.Text_IO.Put_Line (Integer'Image (N)); end Main;
