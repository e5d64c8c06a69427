with Ada.Finalization; with Ada.Text_IO; with Ada.Unchecked_Deallocation;
procedure Main is
   type Cell is record Value : Integer := 0; end record;
   type Ref is access Cell;
   procedure Free is new Ada.Unchecked_Deallocation (Cell, Ref);
   type Box is new Ada.Finalization.Limited_Controlled with record Item : Ref; Number : Integer := 3; end record;
   overriding procedure Finalize (Object : in out Box);
   type Box_Link is access Box;
   procedure Free_Box is new Ada.Unchecked_Deallocation (Box, Box_Link);
   type Chest is new Ada.Finalization.Limited_Controlled with record Held : Box_Link; end record;
   overriding procedure Initialize (Object : in out Chest);
   overriding procedure Finalize (Object : in out Chest);
   type Chest_Link is access Chest;
   procedure Free_Chest is new Ada.Unchecked_Deallocation (Chest, Chest_Link);
   overriding procedure Finalize (Object : in out Box) is
   begin
      Ada.Text_IO.Put_Line ("box");
      Free (Object.Item);
   end Finalize;
   overriding procedure Initialize (Object : in out Chest) is
   begin
      Object.Held := new Box;
   end Initialize;
   overriding procedure Finalize (Object : in out Chest) is
   begin
      Free_Box (Object.Held);
   end Finalize;
   C : Chest_Link := new Chest;
begin
   Ada.Text_IO.Put_Line (Integer'Image (C.Held.Number));
   C.Held.Item := new Cell;
   Free_Chest (C);
   Ada.Text_IO.Put_Line ("freed");
end Main;
