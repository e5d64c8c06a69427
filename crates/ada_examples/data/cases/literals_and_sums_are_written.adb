with Ada.Text_IO; with Ada.Unchecked_Deallocation;
procedure Main is
type Node; type Link is access Node;
type Node is record Value : Integer := 0; Next : Link; end record;
procedure Free is new Ada.Unchecked_Deallocation (Node, Link);
N : Integer := 41;
begin
Ada.Text_IO.Put_Line ("a""b");
Ada.Text_IO.Put_Line ("");
Ada.Text_IO.Put_Line (Integer'Image (N + 1));
N := -N;
Ada.Text_IO.Put_Line (Integer'Image (N - 1));
end Main;
