with Ada.Text_IO; with Ada.Unchecked_Deallocation;
procedure Main is
type Node; type Link is access Node;
type Node is record Value : Integer := 0; Next : Link; end record;
procedure Free is new Ada.Unchecked_Deallocation (Node, Link);
procedure Keep (L : in out Link) is begin null; end Keep;
procedure Hand (L : Link) is begin Keep (L); end Hand;
begin Hand (null); end Main;
