with Ada.Text_IO; with Ada.Unchecked_Deallocation; with Run_Input;
procedure Main is
type Node; type Link is access Node;
type Node is record Value : Integer := 0; Even : Boolean := True; Next : Link; end record;
procedure Free is new Ada.Unchecked_Deallocation (Node, Link);
A : Link; N : Integer := 0;
begin
Run_Input.Get (A.Value);
exception when Constraint_Error => Run_Input.Get (N); Ada.Text_IO.Put_Line (Integer'Image (N));
end Main;
