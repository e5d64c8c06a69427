with Ada.Finalization; with Ada.Text_IO; with Ada.Unchecked_Deallocation;
procedure Main is
   type Cell is record Value : Integer := 0; end record;
   type Ref is access Cell;
   procedure Free is new Ada.Unchecked_Deallocation (Cell, Ref);
   type Box is new Ada.Finalization.Limited_Controlled with record Item : Ref; end record;
   overriding procedure Finalize (Object : in out Box);
   type Box_Link is access Box;
   procedure Free_Box is new Ada.Unchecked_Deallocation (Box, Box_Link);
   type Chest is new Ada.Finalization.Limited_Controlled with record Held : Box_Link; end record;
   overriding procedure Finalize (Object : in out Chest);
   type Chest_Link is access Chest;
   procedure Free_Chest is new Ada.Unchecked_Deallocation (Chest, Chest_Link);
   type Shelf is record Top : Chest_Link; Number : Integer := 0; end record;
   type Shelf_Link is access Shelf;
   overriding procedure Finalize (Object : in out Box) is
   begin
      if Object.Item /= null then
         Ada.Text_IO.Put_Line (Integer'Image (Object.Item.Value));
      end if;
      Free (Object.Item);
   exception
      when others => null;
   end Finalize;
   overriding procedure Finalize (Object : in out Chest) is
   begin
      Free_Box (Object.Held);
      Ada.Text_IO.Put_Line ("a chest");
   end Finalize;
   Here : Shelf;
   There : Shelf_Link := new Shelf;
begin
   Here.Number := 1;
   There.Number := 2;
   Here.Top := new Chest;
   Here.Top.Held := new Box;
   Here.Top.Held.Item := new Cell'(Value => 10);
   There.Top := new Chest;
   There.Top.Held := new Box;
   There.Top.Held.Item := new Cell'(Value => 20);
   Free_Chest (Here.Top);
   if There.Top /= null then
      Ada.Text_IO.Put_Line (Integer'Image (There.Number));
   end if;
   Free_Chest (There.Top);
   Ada.Text_IO.Put_Line (Integer'Image (Here.Number));
end Main;
