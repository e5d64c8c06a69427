with Ada.Text_IO; with Ada.Unchecked_Deallocation; with Run_Input;
procedure Main is
type Node; type Link is access Node;
type Node is record Value : Integer := 7; Even : Boolean := True; Next : Link; end record;
procedure Free is new Ada.Unchecked_Deallocation (Node, Link);

A : Link; N : Integer := 0;
begin
begin
A := new Node; N := 1 / N;
exception when Constraint_Error =>
declare B : Link := new Node; begin B.Value := A.Value + 1; A := B; end;
end;
Ada.Text_IO.Put_Line (Integer'Image (A.Value));
end Main;
