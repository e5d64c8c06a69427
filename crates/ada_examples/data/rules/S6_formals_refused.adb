with Ada.Text_IO; with Ada.Unchecked_Deallocation;
procedure Main is
type Node is record Value : Integer := 0; end record; type Link is access Node;
procedure Free is new Ada.Unchecked_Deallocation (Node, Link);
procedure Cut (L : in out Link; K : in out Link) is
begin Free (L); Ada.Text_IO.Put_Line (Integer'Image (K.Value)); end Cut;
A : Link := new Node'(Value => 1);
begin Cut (A, A); end Main;
