with Ada.Text_IO; with Ada.Unchecked_Deallocation;
procedure Main is
type Node; type Link is access Node;
type Node is record Value : Integer := 0; Next : Link; end record;
procedure Free is new Ada.Unchecked_Deallocation (Node, Link);
procedure Make (N : Integer) is
A : Link := new Node'(N, null);
B : Link := new Node'(N + 1, A);
begin Ada.Text_IO.Put_Line (Integer'Image (B.Value + B.Next.Value)); A := B.Next; B.Next := null; Free (A); end Make;
C : Link := new Node'(9, null);
begin Make (1); Make (5); Ada.Text_IO.Put_Line (Integer'Image (C.Value)); end Main;
