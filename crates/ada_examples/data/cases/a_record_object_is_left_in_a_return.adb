with Ada.Text_IO; with Ada.Unchecked_Deallocation; with Run_Input;
procedure Main is
type Node; type Link is access Node;
type Node is record Value : Integer := 0; Next : Link; end record;
procedure Free is new Ada.Unchecked_Deallocation (Node, Link);
type List is record Head : Link; Count : Integer := 5; end record;

R : List;
begin
R.Head := new Node'(1, null);
for I in 2 .. 5 loop
declare
S : List;
begin
S.Head := new Node'(I, null); S.Head.Next := R.Head; R.Head := null;
R.Head := S.Head; S.Head := null; Ada.Text_IO.Put_Line (Integer'Image (R.Head.Value));
if I = 3 then return; end if;
end;
end loop;
end Main;
