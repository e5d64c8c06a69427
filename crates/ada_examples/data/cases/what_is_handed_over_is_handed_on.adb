with Ada.Text_IO; with Ada.Unchecked_Deallocation;
procedure Main is
type Node; type Link is access Node;
type Node is record Value : Integer := 0; Next : Link; end record;
procedure Free is new Ada.Unchecked_Deallocation (Node, Link);
procedure End_It (L : in out Link) is begin Free (L); end End_It;
procedure Renew (L : in out Link; N : Integer) is begin End_It (L); L := new Node'(N, null); end Renew;
A : Link := new Node'(1, null);
begin Renew (A, 4); Ada.Text_IO.Put_Line (Integer'Image (A.Value)); end Main;
