with Ada.Text_IO; with Ada.Unchecked_Deallocation; with Run_Input;
procedure Main is
type Node; type Link is access Node;
type Node is record Value : Integer := 0; Next : Link; end record;
procedure Free is new Ada.Unchecked_Deallocation (Node, Link);
type List is record Head : Link; Count : Integer := 5; end record;

N : Integer := 0;
begin
for I in 1 .. 3 loop
declare
R : List;
begin
if R.Head = null then N := N + 1; end if;
R.Count := R.Count + I; R.Head := new Node'(R.Count, R.Head); N := N + R.Head.Value * 10;
Ada.Text_IO.Put_Line (Integer'Image (R.Count));
end;
end loop;
Ada.Text_IO.Put_Line (Integer'Image (N));
end Main;
