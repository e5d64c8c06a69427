with Ada.Text_IO; with Ada.Unchecked_Deallocation;
procedure Main is
type Node; type Link is access Node;
type Node is record Value : Integer := 0; Next : Link; end record;
procedure Free is new Ada.Unchecked_Deallocation (Node, Link);
A : Link := new Node'(1, null); B : Link := A;
begin Free (A);
declare procedure Wrong is C : Link := new Node'(1, null); D : Link := C; begin Free (C); end Wrong; begin null; end; end Main;
