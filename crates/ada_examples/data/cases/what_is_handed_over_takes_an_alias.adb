with Ada.Text_IO; with Ada.Unchecked_Deallocation;
procedure Main is
type Node; type Link is access Node;
type Node is record Value : Integer := 0; Next : Link; end record;
procedure Free is new Ada.Unchecked_Deallocation (Node, Link);
procedure Claim (L : in out Link; K : Link) is begin L := K; end Claim;
A : Link := new Node'(1, null); B : Link;
begin Claim (B, A); end Main;
