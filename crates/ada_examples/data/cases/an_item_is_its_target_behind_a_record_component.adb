with Ada.Text_IO; with Ada.Unchecked_Deallocation; with Run_Input;
procedure Main is
type Leaf; type Leaf_Link is access Leaf;
type Leaf is record Value : Integer := 1; Next : Leaf_Link; end record;
procedure Free_Leaf is new Ada.Unchecked_Deallocation (Leaf, Leaf_Link);
type Node; type Link is access Node;
type Ends is record First : Leaf_Link; Last : Leaf_Link; end record;
type Node is record Value : Integer := 5; Leaves : Ends; Next : Link; end record;
procedure Free is new Ada.Unchecked_Deallocation (Node, Link);

A : Link := new Node; L : Leaf_Link := new Leaf;
begin
A.Leaves.Last := L;
for I in 2 .. 3 loop A.Leaves.Last := new Leaf'(I, A.Leaves.Last); end loop;
Ada.Text_IO.Put_Line (Integer'Image (A.Leaves.Last.Value));
Ada.Text_IO.Put_Line (Integer'Image (A.Leaves.Last.Next.Value));
Ada.Text_IO.Put_Line (Integer'Image (A.Leaves.Last.Next.Next.Value));
A.Leaves.First := new Leaf'(4, A.Leaves.First);
if A.Leaves.First.Next = null then Ada.Text_IO.Put_Line ("none"); end if;
end Main;
