with Ada.Text_IO; with Ada.Unchecked_Deallocation;
procedure Main is
type Node; type Link is access Node;
type Node is record Value : Integer := 0; Next : Link; end record;
procedure Free is new Ada.Unchecked_Deallocation (Node, Link);
A : Link := new Node'(1, null); N : Integer := 0;
begin
A.Next := new Node'(2, A.Next);
begin
A.Next := new Node'(1 / N, A.Next);
exception when Constraint_Error => Ada.Text_IO.Put_Line (Integer'Image (A.Next.Value));
end;
end Main;
