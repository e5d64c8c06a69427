with Ada.Text_IO; with Ada.Unchecked_Deallocation;
procedure Main is
type Node; type Link is access Node;
type Node is record Value : Integer := 0; Next : Link; end record;
procedure Free is new Ada.Unchecked_Deallocation (Node, Link);
procedure Both (K : in out Link; L : Link) is begin Ada.Text_IO.Put_Line (Integer'Image (L.Value)); Free (K); end Both;
A : Link := new Node'(1, null);
begin A.Next := new Node'(2, null); Both (A, A.Next); end Main;
