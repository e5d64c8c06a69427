with Ada.Text_IO; with Ada.Unchecked_Deallocation;
procedure Main is
type Node; type Link is access Node;
type Node is record Value : Integer := 0; Next : Link; end record;
procedure Free is new Ada.Unchecked_Deallocation (Node, Link);
procedure Show (L : Link; K : Link) is begin L.Value := 9; Ada.Text_IO.Put_Line (Integer'Image (K.Value)); end Show;
A : Link := new Node'(7, null);
begin Show (A, A); end Main;
