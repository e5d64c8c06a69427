with Ada.Text_IO; with Ada.Unchecked_Deallocation;
procedure Main is
type Node; type Link is access Node;
type Node is record Value : Integer := 0; end record;
procedure Free is new Ada.Unchecked_Deallocation (Node, Link);
procedure Three (A : in out Integer; N : Integer; B : in out Integer) is begin A := B + N; end Three;
X : Integer := 1; L : Link := new Node'(Value => 1); M : Link := L;
begin Three (X, L.Value, X); end Main;
