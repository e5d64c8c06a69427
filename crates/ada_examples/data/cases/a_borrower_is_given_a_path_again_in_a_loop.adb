with Ada.Text_IO; with Ada.Unchecked_Deallocation;
procedure Main is
type Node; type Link is access Node;
type Node is record Value : Integer := 0; Next : Link; end record;
procedure Free is new Ada.Unchecked_Deallocation (Node, Link);
A : Link := new Node'(1, null); X : Link; B : access Node := A; N : Integer := 0;
begin
while N < 2 loop N := N + 1; Free (X); B := A; Ada.Text_IO.Put_Line (Integer'Image (B.Value)); end loop;
end Main;
