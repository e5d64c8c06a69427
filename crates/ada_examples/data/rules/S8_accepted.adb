with Ada.Finalization; with Ada.Unchecked_Deallocation;
procedure Main is
type Node; type Link is access Node;
type Node is new Ada.Finalization.Limited_Controlled with record Next : Link; end record;
overriding procedure Finalize (Object : in out Node);
procedure Free is new Ada.Unchecked_Deallocation (Node, Link);
procedure Finalize (Object : in out Node) is begin null; end Finalize;
begin null; end Main;
