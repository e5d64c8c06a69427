with Ada.Text_IO; with Ada.Unchecked_Deallocation;
procedure Main is
type Node; type Link is access Node;
type Node is record Value : Integer := 0; Next : Link; end record;
procedure Free is new Ada.Unchecked_Deallocation (Node, Link);
procedure Walk (N : Integer) is
Head : Link; B : access Node := Head; Sum : Integer := 0;
begin
for I in 1 .. N loop Head := new Node'(I, Head); end loop;
B := Head;
while B /= null loop Sum := Sum + B.Value; B := B.Next; end loop;
Ada.Text_IO.Put_Line (Integer'Image (Sum));
end Walk;
begin Walk (4); Walk (0); end Main;
