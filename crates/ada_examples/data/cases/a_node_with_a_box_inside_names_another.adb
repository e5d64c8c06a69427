with Ada.Finalization; with Ada.Text_IO; with Ada.Unchecked_Deallocation;
procedure Main is
   type Cell is record Value : Integer := 0; end record;
   type Ref is access Cell;
   procedure Free is new Ada.Unchecked_Deallocation (Cell, Ref);
   type Box is new Ada.Finalization.Limited_Controlled with record Item : Ref; end record;
   overriding procedure Finalize (Object : in out Box);
   type Node;
   type Link is access Node;
   type Node is new Ada.Finalization.Limited_Controlled with record Held : Box; Next : Link; end record;
   overriding procedure Finalize (Object : in out Node);
   procedure Free_Node is new Ada.Unchecked_Deallocation (Node, Link);
   overriding procedure Finalize (Object : in out Box) is
   begin
      Free (Object.Item);
   end Finalize;
   overriding procedure Finalize (Object : in out Node) is
   begin
      Ada.Text_IO.Put_Line ("node");
   end Finalize;
   N : Link := new Node;
begin
   N.Next := new Node;
end Main;
