with Ada.Finalization; with Ada.Text_IO; with Ada.Unchecked_Deallocation;
procedure Main is
   type Node;
   type Link is access Node;
   type Node is record Value : Integer := 0; Next : Link; end record;
   procedure Free is new Ada.Unchecked_Deallocation (Node, Link);
   type Box is new Ada.Finalization.Limited_Controlled with record Item : Link; end record;
   overriding procedure Finalize (Object : in out Box);
   type Box_Link is access Box;
   procedure Free_Box is new Ada.Unchecked_Deallocation (Box, Box_Link);
   overriding procedure Finalize (Object : in out Box) is
   begin
      if Object.Item /= null then
         Ada.Text_IO.Put_Line ("a node");
      end if;
      Free (Object.Item);
   end Finalize;
   B : Box_Link := new Box;
begin
   B.Item := new Node'(Value => 3, Next => null);
   Ada.Text_IO.Put_Line (Integer'Image (B.Item.Value));
   Free_Box (B);
   Ada.Text_IO.Put_Line ("behind");
   B := new Box;
   Free_Box (B);
end Main;
