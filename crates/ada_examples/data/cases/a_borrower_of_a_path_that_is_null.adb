with Ada.Text_IO; with Ada.Unchecked_Deallocation;
procedure Main is
type Node; type Link is access Node;
type Node is record Value : Integer := 0; Next : Link; end record;
procedure Free is new Ada.Unchecked_Deallocation (Node, Link);
A : Link;
B : access Node := A;
begin
if B = null then Ada.Text_IO.Put_Line (Integer'Image (0)); end if;
B.Value := 1;
end Main;
