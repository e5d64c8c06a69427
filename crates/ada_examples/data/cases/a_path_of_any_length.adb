with Ada.Text_IO; with Ada.Unchecked_Deallocation;
procedure Main is
type Node; type Link is access Node;
type Node is record Value : Integer := 0; Next : Link; end record;
procedure Free is new Ada.Unchecked_Deallocation (Node, Link);
A : Link := new Node'(1, null);
begin
A := new Node'(2, A); A := new Node'(3, A);
A.Next.all.Next.Value := A.Value + A.Next.Value;
Ada.Text_IO.Put_Line (Integer'Image (A.all.Next.Next.all.Value));
if A.Next.Next.Next = null and A.Next.Next /= null then Ada.Text_IO.Put_Line ("end"); end if;
end Main;
