with Ada.Text_IO;
with Ada.Unchecked_Deallocation;

procedure Main is
   type Node;
   type Link is access Node;
   type Node is record
      Value : Integer := 0;
      Next  : Link;
   end record;
   procedure Free is new Ada.Unchecked_Deallocation (Node, Link);
   procedure Show (N : Node) is
   begin
      Ada.Text_IO.Put_Line (Integer'Image (N.Value));
   end Show;
   A : Link := new Node'(1, null);
   B : Link;
begin
   B := A;
   Show (A.all);
end Main;
