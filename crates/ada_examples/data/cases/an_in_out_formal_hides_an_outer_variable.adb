with Ada.Text_IO;
procedure Main is
procedure One (X : in out Integer) is
procedure Inner (Y : in out Integer) is begin Y := Y + 1; end Inner;
begin Inner (X); declare X : Integer := 9; begin Inner (X); Ada.Text_IO.Put_Line (Integer'Image (X)); end; Ada.Text_IO.Put_Line (Integer'Image (X)); end One;
X : Integer := 3;
begin One (X); Ada.Text_IO.Put_Line (Integer'Image (X)); end Main;
