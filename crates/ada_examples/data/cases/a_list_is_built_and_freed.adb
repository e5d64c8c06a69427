with Ada.Text_IO; with Ada.Unchecked_Deallocation;
procedure Main is
type Node; type Link is access Node;
type Node is record Value : Integer := 0; Next : Link; end record;
procedure Free is new Ada.Unchecked_Deallocation (Node, Link);
Head : Link; Rest : Link;
begin
for I in 1 .. 3 loop Head := new Node'(I, Head); end loop;
while Head /= null loop
Ada.Text_IO.Put_Line (Integer'Image (Head.Value));
Rest := Head.Next; Head.Next := null;
Free (Head);
Head := Rest; Rest := null;
end loop;
end Main;
