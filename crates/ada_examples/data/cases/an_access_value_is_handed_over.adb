with Ada.Text_IO; with Ada.Unchecked_Deallocation;
procedure Main is
type Node; type Link is access Node;
type Node is record Value : Integer := 0; Next : Link; end record;
procedure Free is new Ada.Unchecked_Deallocation (Node, Link);
procedure Renew (L : in out Link) is begin Free (L); L := new Node'(9, null); end Renew;
A : Link := new Node'(7, null);
begin Renew (A); Ada.Text_IO.Put_Line (Integer'Image (A.Value)); end Main;
