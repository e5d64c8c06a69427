procedure Main is
type Node;
procedure Show (N : Node) is begin null; end Show;
begin null; end Main;
