with Ada.Text_IO; with Ada.Unchecked_Deallocation;
procedure Main is
type Node; type Link is access Node;
type Node is record Value : Integer := 0; Next : Link; end record;
procedure Free is new Ada.Unchecked_Deallocation (Node, Link);
Full : exception;
procedure Inner (L : in out Link) is begin if L.Value = 7 then raise Full; end if; L := null; end Inner;
procedure Outer (L : in out Link) is begin Inner (L); end Outer;
A : Link := new Node'(7, null);
begin Outer (A); exception when Full => Ada.Text_IO.Put_Line (Integer'Image (A.Value)); end Main;
