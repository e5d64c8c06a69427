with Ada.Text_IO; with Ada.Unchecked_Deallocation; with Run_Input;
procedure Main is
type Node; type Link is access Node;
type Node is record Value : Integer := 0; Even : Boolean := True; Next : Link; end record;
procedure Free is new Ada.Unchecked_Deallocation (Node, Link);
A : Link := new Node'(0, True, null); N : Integer := 0;
begin
loop Run_Input.Get (A.Value); N := N + A.all.Value; end loop;
exception when Run_Input.End_Error => Ada.Text_IO.Put_Line (Integer'Image (A.Value)); Ada.Text_IO.Put_Line (Integer'Image (N));
end Main;
