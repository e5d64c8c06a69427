with Ada.Text_IO; with Ada.Unchecked_Deallocation;
procedure Main is
type Node; type Link is access Node;
type Node is record Value : Integer := 0; Next : Link; end record;
type Pair is record Left : Link; Right : Link; end record; type Two is access Pair;
procedure Free is new Ada.Unchecked_Deallocation (Node, Link);
A : Link; B : Two;
begin B := new Pair'(A, A); end Main;
