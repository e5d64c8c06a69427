with Ada.Text_IO; with Ada.Unchecked_Deallocation;
procedure Main is
type Node; type Link is access Node;
type Node is record Value : Integer := 0; Next : Link; end record;
procedure Free is new Ada.Unchecked_Deallocation (Node, Link);
procedure Show (L : Link) is begin Ada.Text_IO.Put_Line (Integer'Image (L.Value)); end Show;
begin Show (new Node'(7, null)); end Main;
