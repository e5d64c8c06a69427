with Ada.Text_IO; with Ada.Unchecked_Deallocation;
procedure Main is
type Node; type Link is access Node;
type Node is record Value : Integer := 0; Next : Link; end record;
procedure Free is new Ada.Unchecked_Deallocation (Node, Link);
Head : Link := new Node'(1, null); Rest : Link; Done : Link;
begin
Head := new Node'(2, Head); Head := new Node'(3, Head);
while Head /= null loop
Rest := Head.Next; Head.Next := null;
Head.Next := Done; Done := Head; Head := Rest; Rest := null;
end loop;
Ada.Text_IO.Put_Line (Integer'Image (Done.Value));
Ada.Text_IO.Put_Line (Integer'Image (Done.Next.Value));
Ada.Text_IO.Put_Line (Integer'Image (Done.Next.Next.Value));
if Done.Next.Next.Next = null then Ada.Text_IO.Put_Line ("three"); end if;
end Main;
