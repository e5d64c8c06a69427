with Ada.Text_IO; with Ada.Unchecked_Deallocation; with Run_Input;
procedure Main is
type Node; type Link is access Node;
type Pair is record Value : Integer := 3; Next : Link; end record;
type Node is record Left : Pair; Value : Integer := 5; Right : Pair; end record;
procedure Free is new Ada.Unchecked_Deallocation (Node, Link);

A : Link := new Node; B : access Node := A;
begin
for I in 1 .. 3 loop
B.Value := I * I;
if I mod 2 = 0 then B.Right.Next := new Node; B := B.Right.Next; else B.Left.Next := new Node; B := B.Left.Next; end if;
end loop;
B := A;
while B /= null loop
Ada.Text_IO.Put_Line (Integer'Image (B.Value));
if B.Left.Next /= null then B := B.Left.Next; else B := B.Right.Next; end if;
end loop;
end Main;
