with Ada.Text_IO; with Ada.Unchecked_Deallocation;
procedure Main is
type Node is record Value : Integer := 0; end record; type Link is access Node;
procedure Free is new Ada.Unchecked_Deallocation (Node, Link);
procedure Drop (N : in out Node; L : in out Link) is
begin Free (L); N.Value := 1; end Drop;
A : Link := new Node'(Value => 1); B : access Node := A;
begin Drop (B.all, A); end Main;
