with Ada.Text_IO;
with Ada.Unchecked_Deallocation;

procedure Main is
   type Node;
   type Link is access Node;
   type Node is record
      Value : Integer := 0;
      Next  : Link;
   end record;
   procedure Free is new Ada.Unchecked_Deallocation (Node, Link);
   procedure Cut (N : in out Node) is
   begin
      Free (N.Next);
   end Cut;
   R : Node;
begin
   R.Next := new Node'(5, null);
   Cut (R);
   if R.Next = null then
      Ada.Text_IO.Put_Line (Integer'Image (0));
   end if;
end Main;
