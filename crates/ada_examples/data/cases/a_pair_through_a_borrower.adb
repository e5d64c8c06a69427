with Ada.Text_IO; with Ada.Unchecked_Deallocation;
procedure Main is
type Node; type Link is access Node;
type Node is record Value : Integer := 0; Next : Link; end record;
procedure Free is new Ada.Unchecked_Deallocation (Node, Link);
T : Link := new Node'(2, null); A : Link := new Node'(1, T); B : access Node := A;
begin
T := B.Next; B.Next := null;
if A.Next = null then Ada.Text_IO.Put_Line (Integer'Image (T.Value)); end if;
Free (T);
end Main;
