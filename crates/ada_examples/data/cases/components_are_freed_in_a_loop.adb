with Ada.Text_IO; with Ada.Unchecked_Deallocation;
procedure Main is
type Leaf is record Value : Integer := 0; end record; type Leaf_Link is access Leaf;
type Node; type Link is access Node;
type Node is record Value : Integer := 0; Down : Leaf_Link; Next : Link; end record;
procedure Free is new Ada.Unchecked_Deallocation (Node, Link);
procedure Free_Leaf is new Ada.Unchecked_Deallocation (Leaf, Leaf_Link);
L : Leaf_Link; A : Link; B : access Node := A; N : Integer := 0;
begin
while N < 3 loop N := N + 1; L := new Leaf'(Value => N); A := new Node'(N * N, L, A); L := null; end loop;
B := A;
while B /= null loop
Ada.Text_IO.Put_Line (Integer'Image (B.Down.Value)); Free_Leaf (B.Down);
B := B.Next; end loop;
end Main;
