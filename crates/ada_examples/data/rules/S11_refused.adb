procedure Main is
type Node; type Link is access Node;
type Node is record Value : Integer := 0; Next : Link; end record;
R : Node; S : Node;
begin R := S; end Main;
