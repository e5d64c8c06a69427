with Ada.Finalization; with Ada.Unchecked_Deallocation;
procedure Main is
   type Cell is record Value : Integer := 0; end record;
   type Ref is access Cell;
   procedure Free is new Ada.Unchecked_Deallocation (Cell, Ref);
   type Box is new Ada.Finalization.Limited_Controlled with record Item : Ref; end record;
   overriding procedure Finalize (Object : in out Box);
   type Box_Link is access Box;
   procedure Free_Box is new Ada.Unchecked_Deallocation (Box, Box_Link);
   type Chest is new Ada.Finalization.Limited_Controlled with record Held : Box_Link; end record;
   overriding procedure Initialize (Object : in out Chest);
   overriding procedure Finalize (Object : in out Chest);
   overriding procedure Finalize (Object : in out Box) is
   begin
      Free (Object.Item);
   end Finalize;
   procedure Drop (Object : in out Chest) is
      Mine : Box_Link;
   begin
      Mine := Object.Held;
      Object.Held := null;
      Free_Box (Mine);
   end Drop;
   overriding procedure Finalize (Object : in out Chest) is
   begin
      Drop (Object);
   end Finalize;
   overriding procedure Initialize (Object : in out Chest) is
   begin
      Drop (Object);
   end Initialize;
   C : Chest;
begin
   C.Held := new Box;
end Main;
