with Ada.Text_IO; with Ada.Unchecked_Deallocation;
procedure Main is
begin
for I in 1 .. 2 loop
declare
type Leaf is record Value : Integer := 0; end record; type Leaf_Link is access Leaf;
type Node is record Value : Integer := 0; Down : Leaf_Link; end record; type Link is access Node;
procedure Free_Leaf is new Ada.Unchecked_Deallocation (Leaf, Leaf_Link);
L : Leaf_Link := new Leaf'(Value => I); A : Link := new Node'(I, L);
begin
Ada.Text_IO.Put_Line (Integer'Image (A.Down.Value));
Free_Leaf (A.Down);
end;
end loop;
end Main;
