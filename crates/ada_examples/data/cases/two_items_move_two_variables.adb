with Ada.Text_IO; with Ada.Unchecked_Deallocation;
procedure Main is
type Node; type Link is access Node;
type Node is record Value : Integer := 0; Next : Link; end record;
type Pair is record Left : Link; Right : Link; end record; type Two is access Pair;
procedure Free is new Ada.Unchecked_Deallocation (Node, Link);
A : Link := new Node'(1, null); B : Link := new Node'(2, null); T : Two;
begin T := new Pair'(Right => A, Left => B);
Ada.Text_IO.Put_Line (Integer'Image (T.Left.Value));
Ada.Text_IO.Put_Line (Integer'Image (T.Right.Value));
A := T.Right; T.Right := null; Free (A);
end Main;
