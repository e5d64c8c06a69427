with Ada.Text_IO; with Ada.Unchecked_Deallocation; with Run_Input;
procedure Main is
type Node; type Link is access Node;
type Node is record Value : Integer := 0; Even : Boolean := True; Next : Link; end record;
procedure Free is new Ada.Unchecked_Deallocation (Node, Link);
A : Link; B : Link;
begin
while A /= null loop A.Value := 1; B := A; end loop;
Ada.Text_IO.Put_Line ("behind");
end Main;
