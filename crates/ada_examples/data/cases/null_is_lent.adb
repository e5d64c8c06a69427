with Ada.Text_IO; with Ada.Unchecked_Deallocation;
procedure Main is
type Node; type Link is access Node;
type Node is record Value : Integer := 0; Next : Link; end record;
procedure Free is new Ada.Unchecked_Deallocation (Node, Link);
procedure Show (L : Link) is begin if L = null then Ada.Text_IO.Put_Line (Integer'Image (0)); else Ada.Text_IO.Put_Line (Integer'Image (L.Value)); end if; end Show;
begin Show (null); end Main;
