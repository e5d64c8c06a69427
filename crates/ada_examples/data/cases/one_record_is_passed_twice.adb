with Ada.Text_IO;
with Ada.Unchecked_Deallocation;

procedure Main is
   type Node;
   type Link is access Node;
   type Node is record
      Value : Integer := 0;
      Next  : Link;
   end record;
   procedure Free is new Ada.Unchecked_Deallocation (Node, Link);
   procedure Both (M : in out Node; N : Node) is
   begin
      M.Value := N.Value;
   end Both;
   A : Link := new Node'(1, null);
begin
   Both (A.all, A.all);
end Main;
