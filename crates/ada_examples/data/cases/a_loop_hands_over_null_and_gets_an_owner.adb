with Ada.Text_IO; with Ada.Unchecked_Deallocation;
procedure Main is
type Node; type Link is access Node;
type Node is record Value : Integer := 0; Next : Link; end record;
procedure Free is new Ada.Unchecked_Deallocation (Node, Link);
procedure Push (L : in out Link; N : Integer) is begin L := new Node'(N, L); end Push;
A : Link;
begin for I in 1 .. 3 loop Push (A, I); end loop; Ada.Text_IO.Put_Line (Integer'Image (A.Value)); Ada.Text_IO.Put_Line (Integer'Image (A.Next.Value)); end Main;
