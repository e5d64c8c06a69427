procedure Main is
type Node is record Value : Integer := 0; end record; type Link is access Node;
procedure Keep (L : in out Link) is
Mine : Link;
begin Mine := L; L := null; end Keep;
A : Link := new Node'(Value => 1);
begin Keep (A); end Main;
