procedure Main is
type Node; type Link is access Node;
A : Link;
N : Integer := A.Value;
begin null; end Main;
