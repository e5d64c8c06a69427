with Ada.Text_IO;
with Ada.Unchecked_Deallocation;

procedure Main is
   type Node;
   type Link is access Node;
   type Node is record
      Value : Integer := 0;
      Next  : Link;
   end record;
   procedure Free is new Ada.Unchecked_Deallocation (Node, Link);
   procedure Sum (M : Node; N : Node) is
   begin
      Ada.Text_IO.Put_Line (Integer'Image (M.Value + N.Value));
   end Sum;
   A : Link := new Node'(1, null);
begin
   Sum (A.all, A.all);
end Main;
