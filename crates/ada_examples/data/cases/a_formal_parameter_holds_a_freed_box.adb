with Ada.Finalization; with Ada.Unchecked_Deallocation;
procedure Main is
   type Cell is record Value : Integer := 0; end record;
   type Ref is access Cell;
   procedure Free is new Ada.Unchecked_Deallocation (Cell, Ref);
   type Box is new Ada.Finalization.Limited_Controlled with record Item : Ref; end record;
   overriding procedure Finalize (Object : in out Box);
   type Box_Link is access Box;
   procedure Free_Box is new Ada.Unchecked_Deallocation (Box, Box_Link);
   type Shelf is record Held : Box_Link; end record;
   type Shelf_Link is access Shelf;
   procedure Free_Shelf is new Ada.Unchecked_Deallocation (Shelf, Shelf_Link);
   overriding procedure Finalize (Object : in out Box) is
   begin
      Free (Object.Item);
   end Finalize;
   procedure Empty (S : in out Shelf) is
   begin
      Free_Box (S.Held);
   end Empty;
   S : Shelf_Link := new Shelf;
begin
   S.Held := new Box;
   Empty (S.all);
end Main;
