with Ada.Text_IO; with Ada.Unchecked_Deallocation;
procedure Main is
type Node; type Link is access Node;
type Node is record Value : Integer := 0; Next : Link; end record;
procedure Free is new Ada.Unchecked_Deallocation (Node, Link);
Full : exception;
procedure Drop (L : in out Link; N : Integer) is begin if N = 1 then raise Full; end if; Free (L); end Drop;
A : Link := new Node'(7, null);
begin Drop (A, 1); exception when Full => Ada.Text_IO.Put_Line (Integer'Image (A.Value)); Free (A); end Main;
