with Ada.Text_IO; with Ada.Unchecked_Deallocation; with Run_Input;
procedure Main is
type Node; type Link is access Node;
type Node is record Value : Integer := 0; Next : Link; end record;
procedure Free is new Ada.Unchecked_Deallocation (Node, Link);
type List is record Head : Link; Count : Integer := 5; end record;

R : List;
begin
R.Count := 1;
declare
S : List;
begin
S.Count := R.Count + 1; S.Head := new Node'(S.Count, null); R.Head := new Node'(9, null);
Ada.Text_IO.Put_Line (Integer'Image (S.Head.Value));
end;
declare
S : List;
begin
Ada.Text_IO.Put_Line (Integer'Image (S.Count));
if S.Head = null then Ada.Text_IO.Put_Line ("none"); end if;
end;
Ada.Text_IO.Put_Line (Integer'Image (R.Head.Value + R.Count));
end Main;
