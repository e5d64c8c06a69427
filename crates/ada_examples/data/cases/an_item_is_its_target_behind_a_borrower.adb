with Ada.Text_IO; with Ada.Unchecked_Deallocation;
procedure Main is
type Node; type Link is access Node;
type Node is record Value : Integer := 0; Next : Link; end record;
procedure Free is new Ada.Unchecked_Deallocation (Node, Link);
A : Link := new Node'(1, null); B : access Node := A;
begin
for I in 2 .. 4 loop B.Next := new Node'(I, B.Next); B := B.Next; end loop;
B := A;
while B /= null loop Ada.Text_IO.Put_Line (Integer'Image (B.Value)); B := B.Next; end loop;
end Main;
