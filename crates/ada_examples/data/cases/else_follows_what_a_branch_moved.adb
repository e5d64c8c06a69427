with Ada.Text_IO; with Ada.Unchecked_Deallocation;
procedure Main is
type Node; type Link is access Node;
type Node is record Value : Integer := 0; Next : Link; end record;
procedure Free is new Ada.Unchecked_Deallocation (Node, Link);
A : Link := new Node'(1, null); B : Link; N : Integer := 0;
begin if N = 1 then B := A; else N := A.Value; end if; Ada.Text_IO.Put_Line (Integer'Image (N)); end Main;
