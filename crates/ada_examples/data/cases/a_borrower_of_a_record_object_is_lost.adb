with Ada.Text_IO; with Ada.Unchecked_Deallocation; with Run_Input;
procedure Main is
type Node; type Link is access Node;
type Node is record Value : Integer := 0; Next : Link; end record;
procedure Free is new Ada.Unchecked_Deallocation (Node, Link);
type List is record Head : Link; Count : Integer := 5; end record;

R : List; B : access Node := R.Head; N : Integer := 0;
begin
R.Head := new Node'(2, null); B := R.Head; N := B.Value; Free (R.Head);
if N = 2 then Ada.Text_IO.Put_Line ("two"); end if;
N := B.Value;
end Main;
