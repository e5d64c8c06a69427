with Ada.Text_IO; with Ada.Unchecked_Deallocation;
procedure Main is
type Node; type Link is access Node;
type Node is record Value : Integer := 0; Next : Link; end record;
procedure Free is new Ada.Unchecked_Deallocation (Node, Link);
procedure Tame is begin raise Program_Error; exception when Program_Error => null; end Tame;
A : Link := new Node'(1, null); B : Link;
begin B := A; Tame; exception when others => Free (A); end Main;
