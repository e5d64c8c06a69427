with Ada.Text_IO;
with Ada.Unchecked_Deallocation;

procedure Main is
   type Node;
   type Link is access Node;
   type Node is record
      Value : Integer := 0;
      Next  : Link;
   end record;
   procedure Free is new Ada.Unchecked_Deallocation (Node, Link);
   procedure Walk (N : in out Node) is
      B : access Node := N.Next;
   begin
      Free (N.Next);
      Ada.Text_IO.Put_Line (Integer'Image (B.Value));
   end Walk;
begin
   null;
end Main;
