with Ada.Finalization; with Ada.Text_IO;
procedure Main is
type Box is new Ada.Finalization.Controlled with record Value : Integer := 1; end record;
type Pair is record Left : Box; Right : Box; end record;
P : Pair; B : Box;
begin
B.Value := 2;
P.Right := B;
B := P.Left;
Ada.Text_IO.Put_Line (Integer'Image (B.Value));
Ada.Text_IO.Put_Line (Integer'Image (P.Right.Value));
end Main;
