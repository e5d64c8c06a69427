with Ada.Unchecked_Deallocation;
procedure Main is
type Node is record Value : Integer := 0; end record; type Link is access Node;
procedure Free is new Ada.Unchecked_Deallocation (Node, Link);
A : Link := new Node'(Value => 1); N : Integer := 0;
B : access Node := A;
begin
Free (A); N := B.Value;
end Main;
