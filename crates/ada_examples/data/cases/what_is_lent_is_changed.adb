with Ada.Text_IO; with Ada.Unchecked_Deallocation;
procedure Main is
type Node; type Link is access Node;
type Node is record Value : Integer := 0; Next : Link; end record;
procedure Free is new Ada.Unchecked_Deallocation (Node, Link);
procedure Bump (L : Link) is begin L.Value := L.Value + 1; L.Next := new Node'(L.Value * 2, null); end Bump;
A : Link := new Node'(7, null);
begin Bump (A); Ada.Text_IO.Put_Line (Integer'Image (A.Value)); Ada.Text_IO.Put_Line (Integer'Image (A.Next.Value)); end Main;
