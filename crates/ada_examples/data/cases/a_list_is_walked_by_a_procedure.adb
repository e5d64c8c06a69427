with Ada.Text_IO; with Ada.Unchecked_Deallocation;
procedure Main is
type Node; type Link is access Node;
type Node is record Value : Integer := 0; Next : Link; end record;
procedure Free is new Ada.Unchecked_Deallocation (Node, Link);
procedure Show (L : Link) is B : access Node := L;
begin while B /= null loop Ada.Text_IO.Put_Line (Integer'Image (B.Value)); B := B.Next; end loop; end Show;
A : Link;
begin for I in 1 .. 3 loop A := new Node'(I, A); end loop; Show (A); Show (A.Next); end Main;
