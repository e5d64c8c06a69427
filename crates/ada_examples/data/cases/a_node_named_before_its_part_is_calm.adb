with Ada.Finalization; with Ada.Unchecked_Deallocation;
procedure Main is
   type Cell is record Value : Integer := 0; end record;
   type Ref is access Cell;
   procedure Free is new Ada.Unchecked_Deallocation (Cell, Ref);
   type Box is new Ada.Finalization.Limited_Controlled with record Item : Ref; end record;
   overriding procedure Finalize (Object : in out Box);
   type Node;
   type Link is access Node;
   type Tag is new Ada.Finalization.Limited_Controlled with null record;
   type Node is record Mark : Tag; Next : Link; end record;
   overriding procedure Finalize (Object : in out Box) is
   begin
      Free (Object.Item);
   end Finalize;
   B : Box;
begin
   null;
end Main;
