with Ada.Text_IO; with Ada.Unchecked_Deallocation;
procedure Main is
type Node; type Link is access Node;
type Node is record Value : Integer := 0; Next : Link; end record;
procedure Free is new Ada.Unchecked_Deallocation (Node, Link);
Full : exception;
procedure Fill (L : in out Link) is begin L := new Node'(1, null); raise Full; end Fill;
A : Link;
begin Fill (A); exception when Full => if A = null then Ada.Text_IO.Put_Line (Integer'Image (0)); end if; A := new Node'(2, null); Ada.Text_IO.Put_Line (Integer'Image (A.Value)); end Main;
