with Ada.Text_IO;
procedure Main is
type Pair is record First : Integer := 1; end record;
procedure One (A : in out Integer) is begin A := 2; end One;
R : Pair;
begin One (R.First); Ada.Text_IO.Put_Line (Integer'Image (R.First)); end Main;
