with Ada.Finalization; with Ada.Text_IO; with Ada.Unchecked_Deallocation;
procedure Main is
   type Chest;
   type Chest_Link is access Chest;
   type Shelf is record Held : Chest_Link; Number : Integer := 0; end record;
   type Shelf_Link is access Shelf;
   procedure Free_Shelf is new Ada.Unchecked_Deallocation (Shelf, Shelf_Link);
   type Box is new Ada.Finalization.Limited_Controlled with record Other : Shelf_Link; end record;
   overriding procedure Finalize (Object : in out Box);
   type Box_Link is access Box;
   procedure Free_Box is new Ada.Unchecked_Deallocation (Box, Box_Link);
   type Chest is new Ada.Finalization.Limited_Controlled with record Held : Box_Link; end record;
   overriding procedure Finalize (Object : in out Chest);
   procedure Free_Chest is new Ada.Unchecked_Deallocation (Chest, Chest_Link);
   overriding procedure Finalize (Object : in out Box) is
   begin
      Ada.Text_IO.Put_Line (Integer'Image (Object.Other.Number));
   exception
      when others => null;
   end Finalize;
   overriding procedure Finalize (Object : in out Chest) is
   begin
      Free_Box (Object.Held);
   end Finalize;
   S : Shelf_Link := new Shelf;
begin
   S.Held := new Chest;
   S.Held.Held := new Box;
   S.Held.Held.Other := new Shelf;
   Free_Chest (S.Held);
end Main;
