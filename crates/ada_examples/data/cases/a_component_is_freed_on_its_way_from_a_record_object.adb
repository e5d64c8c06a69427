with Ada.Text_IO; with Ada.Unchecked_Deallocation; with Run_Input;
procedure Main is
type Node; type Link is access Node;
type Node is record Value : Integer := 0; Next : Link; end record;
procedure Free is new Ada.Unchecked_Deallocation (Node, Link);
type List is record Head : Link; Count : Integer := 5; end record;

R : List;
begin
R.Head := new Node'(1, null); R.Head.Next := new Node'(2, null);
Ada.Text_IO.Put_Line (Integer'Image (R.Head.Next.Value));
Free (R.Head);
R.Head := new Node;
Free (R.Head.Next);
end Main;
