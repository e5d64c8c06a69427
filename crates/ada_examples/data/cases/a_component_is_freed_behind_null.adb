with Ada.Text_IO; with Ada.Unchecked_Deallocation;
procedure Main is
type Leaf is record Value : Integer := 0; end record; type Leaf_Link is access Leaf;
type Node; type Link is access Node;
type Node is record Value : Integer := 0; Down : Leaf_Link; Next : Link; end record;
procedure Free is new Ada.Unchecked_Deallocation (Node, Link);
procedure Free_Leaf is new Ada.Unchecked_Deallocation (Leaf, Leaf_Link);
A : Link;
begin
begin
Free_Leaf (A.Down);
exception when Constraint_Error => Ada.Text_IO.Put_Line ("null");
end;
A := new Node'(1, null, null);
Free_Leaf (A.Next.Down);
end Main;
