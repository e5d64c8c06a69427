with Ada.Text_IO; with Ada.Unchecked_Deallocation;
procedure Main is
type Node; type Link is access Node;
type Node is record Value : Integer := 0; Next : Link; end record;
procedure Free is new Ada.Unchecked_Deallocation (Node, Link);
procedure Make (L : in out Link) is begin L := new Node'(5, null); end Make;
begin declare A : Link; begin Make (A); Ada.Text_IO.Put_Line (Integer'Image (A.Value)); end; Ada.Text_IO.Put_Line (Integer'Image (1)); end Main;
