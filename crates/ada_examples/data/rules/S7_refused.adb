procedure Main is
type Node is record Value : Integer := 0; end record; type Link is access Node;
procedure Share (L : in out Link; K : in out Link) is
begin L := K; end Share;
A : Link := new Node'(Value => 1); B : Link;
begin Share (B, A); end Main;
