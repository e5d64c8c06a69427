with Ada.Text_IO; with Ada.Unchecked_Deallocation;
procedure Main is
type Node; type Link is access Node;
type Node is record Value : Integer := 0; Next : Link; end record;
procedure Free is new Ada.Unchecked_Deallocation (Node, Link);
Full : exception;
procedure Outer (L : in out Link) is T : Link; begin T := L; L := T; raise Full; end Outer;
A : Link := new Node'(7, null);
begin Outer (A); exception when Full => Ada.Text_IO.Put_Line (Integer'Image (A.Value)); end Main;
