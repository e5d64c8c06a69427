with Ada.Text_IO; with Ada.Unchecked_Deallocation;
procedure Main is
type Node; type Link is access Node;
type Node is record Value : Integer := 0; Next : Link; end record;
procedure Free is new Ada.Unchecked_Deallocation (Node, Link);
Full : exception;
procedure Change (L : in out Link) is begin L.Value := 8; raise Full; end Change;
A : Link := new Node'(7, null);
begin Change (A); exception when Full => Ada.Text_IO.Put_Line (Integer'Image (A.Value)); end Main;
