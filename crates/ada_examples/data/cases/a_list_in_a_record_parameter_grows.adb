with Ada.Text_IO;
with Ada.Unchecked_Deallocation;

procedure Main is
   type Node;
   type Link is access Node;
   type Node is record
      Value : Integer := 0;
      Next  : Link;
   end record;
   procedure Free is new Ada.Unchecked_Deallocation (Node, Link);
   procedure Push (N : in out Node; Value : Integer) is
   begin
      N.Next := new Node'(Value, N.Next);
   end Push;
   R : Node;
begin
   Push (R, 1);
   Push (R, 2);
   Ada.Text_IO.Put_Line (Integer'Image (R.Next.Value));
   Ada.Text_IO.Put_Line (Integer'Image (R.Next.Next.Value));
end Main;
