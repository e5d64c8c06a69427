with Ada.Text_IO;
procedure Main is
procedure One (A : Integer) is begin declare A : Integer := 7; begin Ada.Text_IO.Put_Line (Integer'Image (A)); end; Ada.Text_IO.Put_Line (Integer'Image (A)); end One;
begin One (1); end Main;
