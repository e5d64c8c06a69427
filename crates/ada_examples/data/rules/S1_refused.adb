procedure Main is
   type Node is record Value : Integer := 0; end record;
   type Link is access Node;
   A : Link := new Node'(Value => 1);
   B : Link := A;
begin
   B := A;
end Main;
