with Ada.Text_IO; with Ada.Unchecked_Deallocation; with Run_Input;
procedure Main is
type Node; type Link is access Node;
type Pair is record Value : Integer := 3; Next : Link; end record;
type Node is record Left : Pair; Value : Integer := 5; Right : Pair; end record;
procedure Free is new Ada.Unchecked_Deallocation (Node, Link);

A : Link := new Node;
begin
Ada.Text_IO.Put_Line (Integer'Image (A.Left.Value * 100 + A.Value * 10 + A.all.Right.Value));
A.Left.Value := 1; A.Right.Value := A.Left.Value + 1; A.Value := A.Right.Value + 1;
Ada.Text_IO.Put_Line (Integer'Image (A.Left.Value * 100 + A.Value * 10 + A.all.Right.Value));
if A.Left.Next = null then A.Right.Next := new Node; end if;
Run_Input.Get (A.Right.Next.Left.Value); Run_Input.Get (A.Right.Next.Right.Value);
Ada.Text_IO.Put_Line (Integer'Image (A.Right.Next.Left.Value));
Ada.Text_IO.Put_Line (Integer'Image (A.Right.Next.Value));
Ada.Text_IO.Put_Line (Integer'Image (A.Right.Next.Right.Value));
if A.Left.Next = null and A.Right.Next /= null then Ada.Text_IO.Put_Line ("right"); end if;
end Main;
