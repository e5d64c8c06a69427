with Ada.Text_IO;
with Ada.Unchecked_Deallocation;

procedure Main is
   type Node;
   type Link is access Node;
   type Node is record
      Value : Integer := 0;
      Next  : Link;
   end record;
   procedure Free is new Ada.Unchecked_Deallocation (Node, Link);
   procedure Test (N : Node) is
   begin
      if N = null then
         null;
      end if;
   end Test;
begin
   null;
end Main;
