with Ada.Finalization; with Ada.Text_IO; with Ada.Unchecked_Deallocation;
procedure Main is
   type Cell is record Value : Integer := 0; end record;
   type Ref is access Cell;
   procedure Free is new Ada.Unchecked_Deallocation (Cell, Ref);
   type Box;
   type Box_Link is access Box;
   type Node;
   type Link is access Node;
   type Node is new Ada.Finalization.Limited_Controlled with record Number : Integer := 0; Held : Box_Link; end record;
   overriding procedure Finalize (Object : in out Node);
   procedure Free_Node is new Ada.Unchecked_Deallocation (Node, Link);
   type Box is new Ada.Finalization.Limited_Controlled with record Item : Ref; Inside : Link; end record;
   overriding procedure Finalize (Object : in out Box);
   procedure Free_Box is new Ada.Unchecked_Deallocation (Box, Box_Link);
   overriding procedure Finalize (Object : in out Node) is
   begin
      Ada.Text_IO.Put_Line (Integer'Image (Object.Number));
   end Finalize;
   overriding procedure Finalize (Object : in out Box) is
   begin
      Ada.Text_IO.Put_Line ("box");
      Free (Object.Item);
   end Finalize;
   N : Link := new Node;
begin
   N.Number := 1;
   N.Held := new Box;
   N.Held.Item := new Cell;
   N.Held.Inside := new Node;
   N.Held.Inside.Number := 2;
   Ada.Text_IO.Put_Line ("left");
end Main;
