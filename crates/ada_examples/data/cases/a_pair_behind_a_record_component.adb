with Ada.Text_IO; with Ada.Unchecked_Deallocation; with Run_Input;
procedure Main is
type Node; type Link is access Node;
type Pair is record Value : Integer := 3; Next : Link; end record;
type Node is record Left : Pair; Value : Integer := 5; Right : Pair; end record;
procedure Free is new Ada.Unchecked_Deallocation (Node, Link);

A : Link := new Node; B : Link;
begin
A.Right.Next := new Node; A.Right.Next.Value := 9; A.Right.Next.Left.Next := new Node;
B := A.Right.Next.Left.Next; A.Right.Next.Left.Next := null;
B.Left.Next := A.Right.Next; A.Right.Next := null;
if A.Right.Next = null and B.Left.Next.Left.Next = null then Ada.Text_IO.Put_Line (Integer'Image (B.Left.Next.Value)); end if;
A.Left.Next := B;
Ada.Text_IO.Put_Line (Integer'Image (A.Left.Next.Left.Next.Value));
end Main;
