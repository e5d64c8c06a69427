with Ada.Text_IO; with Ada.Unchecked_Deallocation; with Run_Input;
procedure Main is
type Leaf; type Leaf_Link is access Leaf;
type Leaf is record Value : Integer := 1; Next : Leaf_Link; end record;
procedure Free_Leaf is new Ada.Unchecked_Deallocation (Leaf, Leaf_Link);
type Node; type Link is access Node;
type Ends is record First : Leaf_Link; Last : Leaf_Link; end record;
type Node is record Value : Integer := 5; Leaves : Ends; Next : Link; end record;
procedure Free is new Ada.Unchecked_Deallocation (Node, Link);

A : Link := new Node; B : Link;
begin
A.Leaves.First := new Leaf; A.Leaves.Last := new Leaf'(2, null);
Free_Leaf (A.Leaves.First);
if A.Leaves.First = null and A.Leaves.Last /= null then Ada.Text_IO.Put_Line (Integer'Image (A.Leaves.Last.Value)); end if;
B := A; Free_Leaf (B.Leaves.Last);
if B.Leaves.Last = null then Ada.Text_IO.Put_Line ("no leaves"); end if;
Free_Leaf (B.Leaves.First); Free (B);
end Main;
