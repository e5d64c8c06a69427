with Ada.Text_IO; with Ada.Unchecked_Deallocation;
procedure Main is
type Node; type Link is access Node;
type Node is record Value : Integer := 0; Next : Link; end record;
procedure Free is new Ada.Unchecked_Deallocation (Node, Link);
A : Link := new Node'(1, null); B : Link := new Node'(2, null);
begin
B := A; A := new Node'(3, null);
exception
when Storage_Error => Ada.Text_IO.Put_Line (Integer'Image (A.Value));
when others => null;
end Main;
