with Ada.Text_IO; with Ada.Unchecked_Deallocation;
procedure Main is
type Node; type Link is access Node;
type Node is record Value : Integer := 0; Next : Link; end record;
procedure Free is new Ada.Unchecked_Deallocation (Node, Link);
A : Link := new Node'(1, null); X : Link; B : access Node := A;
begin
X := A; A := new Node'(2, X);
Ada.Text_IO.Put_Line (Integer'Image (B.Value)); Ada.Text_IO.Put_Line (Integer'Image (A.Next.Value));
end Main;
