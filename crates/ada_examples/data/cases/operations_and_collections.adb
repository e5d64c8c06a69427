with Ada.Finalization; with Ada.Text_IO; with Ada.Unchecked_Deallocation;
procedure Main is
type Node; type Link is access Node;
type Node is new Ada.Finalization.Limited_Controlled with record Number : Integer := 0; Next : Link; end record;
overriding procedure Finalize (Object : in out Node);
procedure Free is new Ada.Unchecked_Deallocation (Node, Link);
procedure Finalize (Object : in out Node) is
begin
Ada.Text_IO.Put_Line (Integer'Image (Object.Number));
end Finalize;
A : Link := new Node; B : Link := new Node; C : Link := new Node;
begin
A.Number := 1; B.Number := 2; C.Number := 3;
A.Next := B;
Free (C);
Ada.Text_IO.Put_Line ("freed");
end Main;
