with Ada.Text_IO; with Ada.Unchecked_Deallocation;
procedure Main is
type Node; type Link is access Node;
type Node is record Value : Integer := 0; Next : Link; end record;
procedure Free is new Ada.Unchecked_Deallocation (Node, Link);
Full : exception;
procedure Try_It (L : in out Link) is T : Link; begin T := L; raise Full; exception when Full => null; end Try_It;
A : Link := new Node'(7, null);
begin Try_It (A); end Main;
