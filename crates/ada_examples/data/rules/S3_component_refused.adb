with Ada.Text_IO; with Ada.Unchecked_Deallocation;
procedure Main is
type Node; type Link is access Node;
type Node is record Value : Integer := 0; Next : Link; end record;
procedure Free is new Ada.Unchecked_Deallocation (Node, Link);
procedure Drop (L : in out Link) is begin Free (L); end Drop;
A : Link := new Node'(1, null);
begin Drop (A.Next); end Main;
