with Ada.Finalization; with Ada.Unchecked_Deallocation;
procedure Main is
   type Cell is record Value : Integer := 0; end record;
   type Ref is access Cell;
   procedure Free is new Ada.Unchecked_Deallocation (Cell, Ref);
   type Node;
   type Link is access Node;
   type Node is new Ada.Finalization.Limited_Controlled with record Item : Ref; Next : Link; end record;
   overriding procedure Initialize (Object : in out Node);
   overriding procedure Initialize (Object : in out Node) is
   begin
      Object.Item := new Cell;
   end Initialize;
   N : Link := new Node;
begin
   N.Next := new Node;
   Free (N.Item);
end Main;
