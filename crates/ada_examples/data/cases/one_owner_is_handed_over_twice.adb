with Ada.Text_IO; with Ada.Unchecked_Deallocation;
procedure Main is
type Node; type Link is access Node;
type Node is record Value : Integer := 0; Next : Link; end record;
procedure Free is new Ada.Unchecked_Deallocation (Node, Link);
procedure Swap (L : in out Link; K : in out Link) is T : Link; begin T := L; L := K; K := T; end Swap;
A : Link := new Node'(1, null);
begin Swap (A, A); end Main;
