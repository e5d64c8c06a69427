with Ada.Text_IO;
with Ada.Unchecked_Deallocation;

procedure Main is
   type Node;
   type Link is access Node;
   type Node is record
      Value : Integer := 0;
      Next  : Link;
   end record;
   procedure Free is new Ada.Unchecked_Deallocation (Node, Link);
   procedure Both (I : in out Integer; J : in out Integer) is
   begin
      I := 3;
      J := 4;
   end Both;
   A : Link := new Node'(1, null);
   B : access Node := A;
begin
   Both (A.Value, B.Value);
   Ada.Text_IO.Put_Line (Integer'Image (A.Value));
end Main;
