with Ada.Finalization; with Ada.Text_IO; with Ada.Unchecked_Deallocation;
procedure Main is
   type Cell is record Value : Integer := 0; end record;
   type Ref is access Cell;
   procedure Free is new Ada.Unchecked_Deallocation (Cell, Ref);
   type Box is new Ada.Finalization.Limited_Controlled with record Item : Ref; end record;
   overriding procedure Finalize (Object : in out Box);
   type Box_Link is access Box;
   procedure Free_Box is new Ada.Unchecked_Deallocation (Box, Box_Link);
   type Chest is new Ada.Finalization.Limited_Controlled with record Held : Box_Link; end record;
   overriding procedure Finalize (Object : in out Chest);
   type Crate is record Inner : Chest; Number : Integer := 0; end record;
   type Crate_Link is access Crate;
   procedure Free_Crate is new Ada.Unchecked_Deallocation (Crate, Crate_Link);
   type Shelf is record Held : Crate_Link; end record;
   type Shelf_Link is access Shelf;
   overriding procedure Finalize (Object : in out Box) is
   begin
      if Object.Item /= null then
         Ada.Text_IO.Put_Line (Integer'Image (Object.Item.Value));
      end if;
      Free (Object.Item);
   exception
      when others => null;
   end Finalize;
   procedure Drop (B : in out Box_Link) is
   begin
      Free_Box (B);
   end Drop;
   overriding procedure Finalize (Object : in out Chest) is
      Mine : Box_Link;
   begin
      Mine := Object.Held;
      Object.Held := null;
      Drop (Mine);
   end Finalize;
   S : Shelf_Link := new Shelf;
begin
   S.Held := new Crate;
   S.Held.Inner.Held := new Box;
   Free_Crate (S.Held);
end Main;
