procedure Main is
type Node; type Link is access Node;
type Node is record Value : Integer := 1; Next : Node; end record;
begin null; end Main;
