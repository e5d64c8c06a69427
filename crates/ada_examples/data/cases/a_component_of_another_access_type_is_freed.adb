with Ada.Text_IO; with Ada.Unchecked_Deallocation;
procedure Main is
type Node; type Link is access Node; type Other is access Node;
type Node is record Value : Integer := 0; Next : Link; Side : Other; end record;
procedure Free is new Ada.Unchecked_Deallocation (Node, Link);
procedure Free_Other is new Ada.Unchecked_Deallocation (Node, Other);
A : Link := new Node'(1, null, null);
begin
A.Side := new Node'(2, null, null);
Free_Other (A.Side);
Free_Other (A.Next.Side);
end Main;
