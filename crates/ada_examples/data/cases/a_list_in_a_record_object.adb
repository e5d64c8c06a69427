with Ada.Text_IO; with Ada.Unchecked_Deallocation; with Run_Input;
procedure Main is
type Node; type Link is access Node;
type Node is record Value : Integer := 0; Next : Link; end record;
procedure Free is new Ada.Unchecked_Deallocation (Node, Link);
type List is record Head : Link; Count : Integer := 5; end record;

R : List; B : access Node := R.Head;
begin
for I in 1 .. 4 loop R.Head := new Node'(I * I, R.Head); R.Count := R.Count + 1; end loop;
B := R.Head;
while B /= null loop
Ada.Text_IO.Put_Line (Integer'Image (B.Value));
B := B.Next;
end loop;
Ada.Text_IO.Put_Line (Integer'Image (R.Count));
end Main;
