with Ada.Text_IO; with Ada.Unchecked_Deallocation;
procedure Main is
type Node; type Link is access Node;
type Node is record Value : Integer := 0; Next : Link; end record;
procedure Free is new Ada.Unchecked_Deallocation (Node, Link);
Head : Link := new Node'(1, null); Tail : Link;
begin
while Head.Value < 5 loop
Tail := Head;
Head := new Node'(Tail.Value + 1, Tail);
Tail := null;
end loop;
Ada.Text_IO.Put_Line (Integer'Image (Head.Next.Value));
end Main;
