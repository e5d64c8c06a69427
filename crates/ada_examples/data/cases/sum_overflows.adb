with Ada.Text_IO; with Ada.Unchecked_Deallocation;
procedure Main is
type Node; type Link is access Node;
type Node is record Value : Integer := 0; Next : Link; end record;
procedure Free is new Ada.Unchecked_Deallocation (Node, Link);
N : Integer := 2147483647;
begin
Ada.Text_IO.Put_Line ("before");
N := N + 1;
Ada.Text_IO.Put_Line ("after");
end Main;
