with Ada.Text_IO; with Ada.Unchecked_Deallocation; with Run_Input;
procedure Main is
type Node; type Link is access Node;
type Node is record Value : Integer := 0; Next : Link; end record;
procedure Free is new Ada.Unchecked_Deallocation (Node, Link);
type List is record Head : Link; Count : Integer := 5; end record;

R : List; S : List;
begin
R.Head := new Node'(3, null);
S.Head := R.Head; R.Head := null;
Ada.Text_IO.Put_Line (Integer'Image (S.Head.Value));
end Main;
