with Ada.Finalization; with Ada.Text_IO;
procedure Main is
type Outer; type Link is access Outer;
type Inner is new Ada.Finalization.Controlled with record Value : Integer := 3; end record;
type Outer is record Left : Inner; Right : Inner; end record;
A : Link := new Outer; B : Outer := A.all;
begin
B.Left.Value := 4;
A.all := B;
Ada.Text_IO.Put_Line (Integer'Image (A.Left.Value + A.Right.Value));
end Main;
