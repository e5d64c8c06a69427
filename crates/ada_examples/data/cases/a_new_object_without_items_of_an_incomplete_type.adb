procedure Main is
type Node; type Link is access Node;
A : Link := new Node;
type Node is record Value : Integer := 7; end record;
begin null; end Main;
