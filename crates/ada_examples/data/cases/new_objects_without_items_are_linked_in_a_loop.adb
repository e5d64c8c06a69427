with Ada.Text_IO; with Ada.Unchecked_Deallocation; with Run_Input;
procedure Main is
type Node; type Link is access Node;
type Node is record Value : Integer := 7; Even : Boolean := True; Next : Link; end record;
procedure Free is new Ada.Unchecked_Deallocation (Node, Link);

A : Link; X : Link;
begin
for I in 1 .. 3 loop X := new Node; X.Value := I; X.Next := A; A := X; X := null; end loop;
while A /= null loop
Ada.Text_IO.Put_Line (Integer'Image (A.Value)); X := A; A := X.Next; X.Next := null; Free (X);
end loop;
end Main;
