with Ada.Finalization; with Ada.Text_IO; with Ada.Unchecked_Deallocation;
procedure Main is
   type Cell is record Value : Integer := 0; end record;
   type Ref is access Cell;
   procedure Free is new Ada.Unchecked_Deallocation (Cell, Ref);
   type Box is new Ada.Finalization.Limited_Controlled with record Item : Ref; end record;
   overriding procedure Finalize (Object : in out Box);
   type Box_Link is access Box;
   procedure Free_Box is new Ada.Unchecked_Deallocation (Box, Box_Link);
   type Chest is new Ada.Finalization.Limited_Controlled with record Held : Box_Link; Number : Integer := 7; end record;
   overriding procedure Finalize (Object : in out Chest);
   type Chest_Link is access Chest;
   procedure Free_Chest is new Ada.Unchecked_Deallocation (Chest, Chest_Link);
   overriding procedure Finalize (Object : in out Box) is
   begin
      if Object.Item /= null then
         Ada.Text_IO.Put_Line (Integer'Image (Object.Item.Value));
      end if;
      Free (Object.Item);
   exception
      when others => null;
   end Finalize;
   overriding procedure Finalize (Object : in out Chest) is
   begin
      Free_Box (Object.Held);
      if Object.Held = null then
         Ada.Text_IO.Put_Line (Integer'Image (Object.Number));
      end if;
   end Finalize;
   procedure Fill (C : in out Chest; N : Integer) is
   begin
      C.Held := new Box;
      C.Held.Item := new Cell'(Value => N);
   end Fill;
   Mine : Chest;
   C : Chest_Link := new Chest;
   D : Chest_Link := new Chest;
begin
   Fill (Mine, 1);
   Fill (C.all, 2);
   Fill (D.all, 3);
   Free_Chest (C);
   Ada.Text_IO.Put_Line ("left");
end Main;
