with Ada.Text_IO; with Ada.Unchecked_Deallocation;
procedure Main is
type Node; type Link is access Node;
type Node is record Value : Integer := 0; Next : Link; end record;
procedure Free is new Ada.Unchecked_Deallocation (Node, Link);
A : Link; N : Integer := 2;
begin
N := N + A.Value;
exception
when Constraint_Error => A := new Node'(N, null); Ada.Text_IO.Put_Line (Integer'Image (A.Value)); Free (A); return;
end Main;
