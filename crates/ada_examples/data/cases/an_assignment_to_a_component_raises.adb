with Ada.Text_IO; with Ada.Unchecked_Deallocation; with Run_Input;
procedure Main is
type Node; type Link is access Node;
type Node is record Value : Integer := 0; Even : Boolean := True; Next : Link; end record;
procedure Free is new Ada.Unchecked_Deallocation (Node, Link);
A : Link := new Node'(3, True, null);
begin
A.Value := A.Value / (A.Value - 3);
exception when Constraint_Error => Ada.Text_IO.Put_Line (Integer'Image (A.Value));
end Main;
