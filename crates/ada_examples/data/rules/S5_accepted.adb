procedure Main is
type Node is record Value : Integer := 0; end record; type Link is access Node;
A : Link := new Node'(Value => 1); B : Link; N : Integer := 0;
begin while N < 2 loop N := N + 1; B := A; A := new Node'(Value => N); end loop; end Main;
