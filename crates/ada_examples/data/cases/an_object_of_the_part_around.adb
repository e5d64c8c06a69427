with Ada.Text_IO;
procedure Main is
begin declare X : Integer := 1; begin declare
procedure Show is begin Ada.Text_IO.Put_Line (Integer'Image (X)); end Show;
begin Show; end; end; end Main;
