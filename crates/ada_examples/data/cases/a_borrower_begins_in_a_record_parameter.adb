with Ada.Text_IO;
with Ada.Unchecked_Deallocation;

procedure Main is
   type Node;
   type Link is access Node;
   type Node is record
      Value : Integer := 0;
      Next  : Link;
   end record;
   procedure Free is new Ada.Unchecked_Deallocation (Node, Link);
   procedure Walk (N : Node) is
      B : access Node := N.Next;
   begin
      while B /= null loop
         Ada.Text_IO.Put_Line (Integer'Image (B.Value));
         B := B.Next;
      end loop;
   end Walk;
   R : Node;
begin
   R.Next := new Node'(1, null);
   R.Next.Next := new Node'(2, null);
   Walk (R);
end Main;
