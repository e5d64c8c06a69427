with Ada.Finalization; with Ada.Text_IO; with Ada.Unchecked_Deallocation;
procedure Main is
   type Cell is record Value : Integer := 0; end record;
   type Ref is access Cell;
   procedure Free is new Ada.Unchecked_Deallocation (Cell, Ref);
   type Box is new Ada.Finalization.Limited_Controlled with record Item : Ref; end record;
   overriding procedure Finalize (Object : in out Box);
   type Box_Link is access Box;
   procedure Free_Box is new Ada.Unchecked_Deallocation (Box, Box_Link);
   type Shelf is record Held : Box_Link; Number : Integer := 0; end record;
   type Shelf_Link is access Shelf;
   procedure Free_Shelf is new Ada.Unchecked_Deallocation (Shelf, Shelf_Link);
   type Room is new Ada.Finalization.Limited_Controlled with record Wall : Shelf_Link; end record;
   overriding procedure Finalize (Object : in out Room);
   overriding procedure Finalize (Object : in out Box) is
   begin
      if Object.Item /= null then
         Ada.Text_IO.Put_Line (Integer'Image (Object.Item.Value));
      end if;
      Free (Object.Item);
   exception
      when others => null;
   end Finalize;
   overriding procedure Finalize (Object : in out Room) is
   begin
      if Object.Wall /= null then
         Free_Box (Object.Wall.Held);
         Ada.Text_IO.Put_Line (Integer'Image (Object.Wall.Number));
         if Object.Wall.Held = null then
            Ada.Text_IO.Put_Line ("null");
         end if;
      end if;
      Free_Shelf (Object.Wall);
   exception
      when others => null;
   end Finalize;
   R : Room;
begin
   R.Wall := new Shelf;
   R.Wall.Number := 4;
   R.Wall.Held := new Box;
   R.Wall.Held.Item := new Cell'(Value => 5);
   Ada.Text_IO.Put_Line ("left");
end Main;
