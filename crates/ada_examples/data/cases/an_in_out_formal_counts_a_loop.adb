with Ada.Text_IO;
procedure Main is
procedure One (A : in out Integer) is begin for A in 1 .. 2 loop null; end loop; A := A + 1; end One;
X : Integer := 3;
begin One (X); Ada.Text_IO.Put_Line (Integer'Image (X)); end Main;
