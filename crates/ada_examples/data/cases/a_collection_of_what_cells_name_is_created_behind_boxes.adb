with Ada.Finalization; with Ada.Unchecked_Deallocation;
procedure Main is
   type Leaf is record Veins : Integer := 5; end record;
   type Stem is access Leaf;
   type Cell is record Grown : Stem; end record;
   type Ref is access Cell;
   procedure Free is new Ada.Unchecked_Deallocation (Cell, Ref);
   type Box is new Ada.Finalization.Limited_Controlled with record Item : Ref; end record;
   overriding procedure Finalize (Object : in out Box);
   type Box_Link is access Box;
   procedure Free_Box is new Ada.Unchecked_Deallocation (Box, Box_Link);
   procedure Free_Leaf is new Ada.Unchecked_Deallocation (Leaf, Stem);
   overriding procedure Finalize (Object : in out Box) is
   begin
      Free (Object.Item);
   end Finalize;
   B : Box_Link := new Box;
begin
   B.Item := new Cell;
   B.Item.Grown := new Leaf;
end Main;
