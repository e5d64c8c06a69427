with Ada.Text_IO; with Ada.Unchecked_Deallocation; with Run_Input;
procedure Main is
type Node; type Link is access Node;
type Pair is record Value : Integer := 3; Next : Link; end record;
type Node is record Left : Pair; Value : Integer := 5; Right : Pair; end record;
procedure Free is new Ada.Unchecked_Deallocation (Node, Link);

A : Link := new Node; N : Integer := 0;
begin
begin A.Left.Next.Right.Value := 1;
exception when Constraint_Error => Ada.Text_IO.Put_Line ("null"); end;
Run_Input.Get (N);
begin Run_Input.Get (A.Left.Next.Right.Value);
exception when Constraint_Error => Run_Input.Get (A.Right.Value); end;
Ada.Text_IO.Put_Line (Integer'Image (A.Right.Value));
N := A.Right.Next.Left.Value;
end Main;
