with Ada.Text_IO; with Ada.Unchecked_Deallocation;
procedure Main is
type Node; type Link is access Node;
type Node is record Value : Integer := 0; Next : Link; end record;
procedure Free is new Ada.Unchecked_Deallocation (Node, Link);
procedure Put (L : in out Link; N : Integer) is begin L.Value := N; end Put;
A : Link := new Node'(1, null);
begin Put (A, A.Value + 4); Ada.Text_IO.Put_Line (Integer'Image (A.Value)); end Main;
