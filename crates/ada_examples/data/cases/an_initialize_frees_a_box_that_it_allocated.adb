with Ada.Finalization; with Ada.Text_IO; with Ada.Unchecked_Deallocation;
procedure Main is
   type Cell is record Value : Integer := 0; end record;
   type Ref is access Cell;
   procedure Free is new Ada.Unchecked_Deallocation (Cell, Ref);
   type Box is new Ada.Finalization.Limited_Controlled with record Item : Ref; end record;
   overriding procedure Finalize (Object : in out Box);
   type Box_Link is access Box;
   procedure Free_Box is new Ada.Unchecked_Deallocation (Box, Box_Link);
   type Crate is record Inner : Box; Number : Integer := 0; end record;
   type Crate_Link is access Crate;
   procedure Free_Crate is new Ada.Unchecked_Deallocation (Crate, Crate_Link);
   type Chest is new Ada.Finalization.Limited_Controlled with record Held : Crate_Link; end record;
   overriding procedure Initialize (Object : in out Chest);
   overriding procedure Finalize (Object : in out Chest);
   overriding procedure Finalize (Object : in out Box) is
   begin
      Ada.Text_IO.Put_Line ("box");
      Free (Object.Item);
   end Finalize;
   procedure Fill (Object : in out Chest) is
      Made : Box_Link := new Box;
   begin
      Made.Item := new Cell;
      Object.Held := new Crate;
      Free_Box (Made);
   end Fill;
   overriding procedure Initialize (Object : in out Chest) is
   begin
      Fill (Object);
   exception
      when Storage_Error => Ada.Text_IO.Put_Line ("no room");
   end Initialize;
   overriding procedure Finalize (Object : in out Chest) is
   begin
      Free_Crate (Object.Held);
   end Finalize;
   C : Chest;
begin
   C.Held.Inner.Item := new Cell;
   Ada.Text_IO.Put_Line ("filled");
end Main;
