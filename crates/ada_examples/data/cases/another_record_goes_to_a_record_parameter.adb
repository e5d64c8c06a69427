with Ada.Text_IO;
with Ada.Unchecked_Deallocation;

procedure Main is
   type Node;
   type Link is access Node;
   type Node is record
      Value : Integer := 0;
      Next  : Link;
   end record;
   procedure Free is new Ada.Unchecked_Deallocation (Node, Link);
   type Place is record
      Line   : Integer := 1;
      Column : Integer := 2;
   end record;
   procedure Show (N : Node) is
   begin
      Ada.Text_IO.Put_Line (Integer'Image (N.Value));
   end Show;
   R : Place;
begin
   Show (R);
end Main;
