with Ada.Text_IO;
procedure Main is
procedure Main_Like (Main : Integer) is X : Integer := Main; begin Ada.Text_IO.Put_Line (Integer'Image (X)); end Main_Like;
X : Integer := 3;
begin Main_Like (X); end Main;
