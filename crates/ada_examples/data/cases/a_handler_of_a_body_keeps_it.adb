with Ada.Text_IO; with Ada.Unchecked_Deallocation;
procedure Main is
type Node; type Link is access Node;
type Node is record Value : Integer := 0; Next : Link; end record;
procedure Free is new Ada.Unchecked_Deallocation (Node, Link);
Full : exception;
procedure Try_It (L : in out Link) is begin raise Full; exception when Full => Free (L); end Try_It;
A : Link := new Node'(7, null);
begin Try_It (A); if A = null then Ada.Text_IO.Put_Line (Integer'Image (0)); end if; end Main;
