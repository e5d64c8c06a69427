with Ada.Text_IO; with Ada.Unchecked_Deallocation; with Run_Input;
procedure Main is
type Node; type Link is access Node;
type Node is record Value : Integer := 0; Next : Link; end record;
procedure Free is new Ada.Unchecked_Deallocation (Node, Link);
type List is record Head : Link; Count : Integer := 5; end record;

R : List; A : Link := new Node'(1, null);
begin
R.Head := A; A := R.Head; R.Head := null; A.Value := A.Value + 1;
Ada.Text_IO.Put_Line (Integer'Image (A.Value));
R.Head := new Node'(7, A); Ada.Text_IO.Put_Line (Integer'Image (R.Head.Next.Value)); A := null;
end Main;
