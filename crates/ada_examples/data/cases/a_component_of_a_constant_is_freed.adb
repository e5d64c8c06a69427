with Ada.Text_IO;
with Ada.Unchecked_Deallocation;

procedure Main is
   type Node;
   type Link is access Node;
   type Node is record
      Value : Integer := 0;
      Next  : Link;
   end record;
   procedure Free is new Ada.Unchecked_Deallocation (Node, Link);
   procedure Cut (N : Node) is
   begin
      Free (N.Next);
   end Cut;
   R : Node;
begin
   Cut (R);
end Main;
