with Ada.Text_IO; with Ada.Unchecked_Deallocation;
procedure Main is
type Node; type Link is access Node;
type Node is record Value : Integer := 0; Next : Link; end record;
procedure Free is new Ada.Unchecked_Deallocation (Node, Link);
procedure Keep (L : in out Link) is begin L.Value := 3; end Keep;
A : Link := new Node'(1, null); B : access Node := A;
begin Keep (A); Ada.Text_IO.Put_Line (Integer'Image (B.Value)); end Main;
