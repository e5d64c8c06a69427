with Ada.Finalization; with Ada.Unchecked_Deallocation;
procedure Main is
   type Cell is record Value : Integer := 0; end record;
   type Ref is access Cell;
   procedure Free is new Ada.Unchecked_Deallocation (Cell, Ref);
   type Node;
   type Link is access Node;
   type Node is new Ada.Finalization.Limited_Controlled with record Item : Ref; Next : Link; end record;
   overriding procedure Finalize (Object : in out Node);
   procedure Free_Node is new Ada.Unchecked_Deallocation (Node, Link);
   overriding procedure Finalize (Object : in out Node) is
   begin
      Free (Object.Item);
   end Finalize;
   N : Link := new Node;
begin
   N.Item := new Cell;
end Main;
