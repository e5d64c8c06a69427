with Ada.Text_IO; with Ada.Unchecked_Deallocation;
procedure Main is
type Node is record Value : Integer := 0; end record; type Link is access Node;
Full : exception;
procedure Free is new Ada.Unchecked_Deallocation (Node, Link);
procedure Drop (L : in out Link) is
begin Free (L); raise Full; end Drop;
A : Link := new Node'(Value => 1);
begin Drop (A);
exception when Full => Ada.Text_IO.Put_Line (Integer'Image (A.Value)); end Main;
