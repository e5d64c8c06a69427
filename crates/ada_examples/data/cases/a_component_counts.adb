with Ada.Text_IO; with Ada.Unchecked_Deallocation; with Run_Input;
procedure Main is
type Node; type Link is access Node;
type Node is record Value : Integer := 0; Even : Boolean := True; Next : Link; end record;
procedure Free is new Ada.Unchecked_Deallocation (Node, Link);
A : Link := new Node'(0, True, null);
begin
for I in 1 .. 3 loop A.Value := A.Value + I; A.all.Even := not A.Even; end loop;
Ada.Text_IO.Put_Line (Integer'Image (A.Value));
if A.Even then Ada.Text_IO.Put_Line ("even"); else Ada.Text_IO.Put_Line ("odd"); end if;
Free (A);
end Main;
