with Ada.Text_IO; with Ada.Unchecked_Deallocation; with Run_Input;
procedure Main is
type Node; type Link is access Node;
type Node is record Value : Integer := 7; Even : Boolean := True; Next : Link; end record;
procedure Free is new Ada.Unchecked_Deallocation (Node, Link);

A : Link := new Node; B : Link;
begin
Ada.Text_IO.Put_Line (Integer'Image (A.Value));
if A.Even and A.Next = null then Ada.Text_IO.Put_Line ("even"); end if;
A.Value := 8; A.Even := False; B := new Node;
Ada.Text_IO.Put_Line (Integer'Image (A.Value * 10 + B.Value));
if B.Even and not A.Even then Ada.Text_IO.Put_Line ("of its own"); end if;
Free (A); Free (B);
end Main;
