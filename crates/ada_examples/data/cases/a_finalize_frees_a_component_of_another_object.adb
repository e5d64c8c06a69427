with Ada.Finalization; with Ada.Text_IO; with Ada.Unchecked_Deallocation;
procedure Main is
   type Cell is record Value : Integer := 0; end record;
   type Ref is access Cell;
   procedure Free is new Ada.Unchecked_Deallocation (Cell, Ref);
   type Box is new Ada.Finalization.Limited_Controlled with record Item : Ref; end record;
   overriding procedure Finalize (Object : in out Box);
   type Box_Link is access Box;
   procedure Free_Box is new Ada.Unchecked_Deallocation (Box, Box_Link);
   type Tray;
   type Tray_Link is access Tray;
   type Tray is record Held : Box_Link; Next : Tray_Link; end record;
   procedure Free_Tray is new Ada.Unchecked_Deallocation (Tray, Tray_Link);
   type Chest is new Ada.Finalization.Limited_Controlled with record Trays : Tray_Link; end record;
   overriding procedure Finalize (Object : in out Chest);
   type Chest_Link is access Chest;
   procedure Free_Chest is new Ada.Unchecked_Deallocation (Chest, Chest_Link);
   type Shelf is record Held : Chest_Link; Count : Integer := 2; end record;
   type Shelf_Link is access Shelf;
   overriding procedure Finalize (Object : in out Box) is
   begin
      if Object.Item /= null then
         Ada.Text_IO.Put_Line (Integer'Image (Object.Item.Value));
      end if;
      Free (Object.Item);
   exception
      when others => null;
   end Finalize;
   overriding procedure Finalize (Object : in out Chest) is
      Rest : Tray_Link;
   begin
      while Object.Trays /= null loop
         Free_Box (Object.Trays.Held);
         Rest := Object.Trays.Next;
         Object.Trays.Next := null;
         Free_Tray (Object.Trays);
         Object.Trays := Rest;
         Rest := null;
      end loop;
      Ada.Text_IO.Put_Line ("no tray is left");
   exception
      when others => null;
   end Finalize;
   S : Shelf_Link := new Shelf;
begin
   S.Held := new Chest;
   for I in 1 .. S.Count loop
      S.Held.Trays := new Tray'(Held => null, Next => S.Held.Trays);
      S.Held.Trays.Held := new Box;
      S.Held.Trays.Held.Item := new Cell'(Value => I);
   end loop;
   Free_Chest (S.Held);
   Ada.Text_IO.Put_Line (Integer'Image (S.Count));
end Main;
