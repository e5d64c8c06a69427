with Ada.Text_IO; with Ada.Unchecked_Deallocation;
procedure Main is
type Node; type Link is access Node;
type Node is record Value : Integer := 0; Next : Link; end record;
procedure Free is new Ada.Unchecked_Deallocation (Node, Link);
Full : exception;
procedure Both (L : in out Link; K : in out Link) is begin Free (K); raise Full; end Both;
A : Link := new Node'(7, null); B : Link := new Node'(8, null);
begin Both (A, B); exception when Full => Ada.Text_IO.Put_Line (Integer'Image (A.Value)); B := null; end Main;
