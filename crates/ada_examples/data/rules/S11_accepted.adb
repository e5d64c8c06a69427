procedure Main is
type Node; type Link is access Node;
type Node is record Value : Integer := 0; Next : Link; end record;
R : Node; S : Node;
begin R.Value := S.Value; R.Next := S.Next; S.Next := null; end Main;
