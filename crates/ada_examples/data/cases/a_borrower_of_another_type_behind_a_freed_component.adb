with Ada.Text_IO; with Ada.Unchecked_Deallocation;
procedure Main is
type Leaf is record Value : Integer := 0; end record; type Leaf_Link is access Leaf;
type Node; type Link is access Node;
type Node is record Value : Integer := 0; Down : Leaf_Link; Next : Link; end record;
procedure Free is new Ada.Unchecked_Deallocation (Node, Link);
procedure Free_Leaf is new Ada.Unchecked_Deallocation (Leaf, Leaf_Link);
L : Leaf_Link := new Leaf'(Value => 7); A : Link := new Node'(1, L, null); B : access Node := A;
begin
Free_Leaf (A.Down);
Ada.Text_IO.Put_Line (Integer'Image (B.Value));
end Main;
