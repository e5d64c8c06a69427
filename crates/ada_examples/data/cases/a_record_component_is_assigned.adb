with Ada.Text_IO; with Ada.Unchecked_Deallocation; with Run_Input;
procedure Main is
type Node; type Link is access Node;
type Pair is record Value : Integer := 3; Next : Link; end record;
type Node is record Left : Pair; Value : Integer := 5; Right : Pair; end record;
procedure Free is new Ada.Unchecked_Deallocation (Node, Link);

A : Link := new Node; B : Link := new Node;
begin A.Left := B.Right; end Main;
