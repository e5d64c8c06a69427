with Ada.Finalization; with Ada.Unchecked_Deallocation;
procedure Main is
   type Cell is record Value : Integer := 0; end record;
   type Ref is access Cell;
   procedure Free is new Ada.Unchecked_Deallocation (Cell, Ref);
   type Box is new Ada.Finalization.Limited_Controlled with record Item : Ref; end record;
   overriding procedure Finalize (Object : in out Box);
   type Box_Link is access Box;
   procedure Free_Box is new Ada.Unchecked_Deallocation (Box, Box_Link);
   type Chest is new Ada.Finalization.Controlled with record Held : Box_Link; end record;
   overriding procedure Adjust (Object : in out Chest);
   overriding procedure Finalize (Object : in out Box) is
   begin
      Free (Object.Item);
   end Finalize;
   overriding procedure Adjust (Object : in out Chest) is
      Mine : Box_Link;
   begin
      Object.Held := null;
      Free_Box (Mine);
   end Adjust;
   C : Chest;
   D : Chest;
begin
   C := D;
end Main;
