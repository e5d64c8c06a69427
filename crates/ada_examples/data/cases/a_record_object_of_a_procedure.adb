with Ada.Text_IO; with Ada.Unchecked_Deallocation;
procedure Main is
type Node; type Link is access Node;
type Node is record Value : Integer := 0; Next : Link; end record;
procedure Free is new Ada.Unchecked_Deallocation (Node, Link);
procedure Sum (N : Integer) is
type Pair is record Left : Integer := 1; Right : Integer := 2; end record;
R : Pair; S : Pair := Pair'(N, N);
L : Node;
begin R := S; R.Left := R.Left + 1; L.Next := new Node'(R.Left, null); Ada.Text_IO.Put_Line (Integer'Image (L.Next.Value + R.Right)); end Sum;
begin Sum (4); Sum (5); end Main;
