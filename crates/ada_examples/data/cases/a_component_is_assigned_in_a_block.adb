with Ada.Text_IO; with Ada.Unchecked_Deallocation; with Run_Input;
procedure Main is
type Node; type Link is access Node;
type Node is record Value : Integer := 0; Even : Boolean := True; Next : Link; end record;
procedure Free is new Ada.Unchecked_Deallocation (Node, Link);
A : Link := new Node'(1, True, null);
begin
declare
type Cell is record Value : Integer := 0; end record;
type Short is access Cell;
B : Short := new Cell'(Value => 5);
begin
B.Value := B.Value + A.Value; A.Value := B.Value * 2;
raise Program_Error;
exception when Program_Error => Ada.Text_IO.Put_Line (Integer'Image (B.Value)); A.Value := A.Value + 1;
end;
Ada.Text_IO.Put_Line (Integer'Image (A.Value));
end Main;
