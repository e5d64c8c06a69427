with Ada.Text_IO; with Ada.Unchecked_Deallocation; with Run_Input;
procedure Main is
type Node; type Link is access Node;
type Node is record Value : Integer := 7; Even : Boolean := True; Next : Link; end record;
procedure Free is new Ada.Unchecked_Deallocation (Node, Link);

A : Link := new Node; B : access Node := A;
begin
A.Next := new Node; A.Next.Value := 9; A.Next.Next := new Node;
B := B.Next;
Ada.Text_IO.Put_Line (Integer'Image (B.Value)); Ada.Text_IO.Put_Line (Integer'Image (B.Next.Value));
A.Next := new Node;
Ada.Text_IO.Put_Line (Integer'Image (A.Next.Value)); Ada.Text_IO.Put_Line (Integer'Image (B.Value));
end Main;
