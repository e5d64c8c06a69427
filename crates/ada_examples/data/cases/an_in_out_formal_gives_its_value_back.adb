with Ada.Text_IO;
procedure Main is
procedure Next (N : in out Integer) is begin N := N + 1; end Next;
X : Integer := 6;
begin Next (X); Next (X); Ada.Text_IO.Put_Line (Integer'Image (X)); end Main;
