with Ada.Text_IO;
with Ada.Unchecked_Deallocation;

procedure Main is
   type Node;
   type Link is access Node;
   type Node is record
      Value : Integer := 0;
      Next  : Link;
   end record;
   procedure Free is new Ada.Unchecked_Deallocation (Node, Link);
   procedure Mark (N : Node) is
   begin
      N.Next.Value := 9;
   end Mark;
   R : Node;
begin
   R.Next := new Node'(5, null);
   Mark (R);
   Ada.Text_IO.Put_Line (Integer'Image (R.Next.Value));
end Main;
