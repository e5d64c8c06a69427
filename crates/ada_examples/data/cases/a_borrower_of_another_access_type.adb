with Ada.Text_IO; with Ada.Unchecked_Deallocation;
procedure Main is
type Node; type Link is access Node;
type Node is record Value : Integer := 0; Next : Link; end record;
type Other is access Node;
procedure Free is new Ada.Unchecked_Deallocation (Node, Link);
A : Link; X : Other; B : access Node := A;
begin B := X; end Main;
