with Ada.Text_IO; with Ada.Unchecked_Deallocation;
procedure Main is
type Node; type Link is access Node;
type Node is record Value : Integer := 0; Next : Link; end record;
procedure Free is new Ada.Unchecked_Deallocation (Node, Link);
A : Link := new Node'(1, null); B : Link;
begin
A := new Node'(2, A); A := new Node'(3, A);
B := A.Next.Next; A.Next.Next := null;
Ada.Text_IO.Put_Line (Integer'Image (B.Value));
Free (B);
if A.Next.Next = null then Ada.Text_IO.Put_Line ("cut"); end if;
end Main;
