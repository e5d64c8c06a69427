with Ada.Text_IO; with Ada.Unchecked_Deallocation;
procedure Main is
type Node; type Link is access Node;
type Node is record Value : Integer := 0; Next : Link; end record;
procedure Free is new Ada.Unchecked_Deallocation (Node, Link);
procedure Take (L : Link) is A : Link; begin A := new Node'(1, L); end Take;
A : Link := new Node'(7, null);
begin Take (A); end Main;
