with Ada.Finalization; with Ada.Text_IO; with Ada.Unchecked_Deallocation;
procedure Main is
   type Cell is record Value : Integer := 0; end record;
   type Ref is access Cell;
   procedure Free is new Ada.Unchecked_Deallocation (Cell, Ref);
   type Box is new Ada.Finalization.Limited_Controlled with record Item : Ref; end record;
   overriding procedure Finalize (Object : in out Box);
   type Box_Link is access Box;
   procedure Free_Box is new Ada.Unchecked_Deallocation (Box, Box_Link);
   type Chest is new Ada.Finalization.Limited_Controlled with record First : Box_Link; Second : Box_Link; end record;
   overriding procedure Finalize (Object : in out Chest);
   type Chest_Link is access Chest;
   procedure Free_Chest is new Ada.Unchecked_Deallocation (Chest, Chest_Link);
   type Shelf is record Held : Chest_Link; end record;
   type Shelf_Link is access Shelf;
   overriding procedure Finalize (Object : in out Box) is
   begin
      Ada.Text_IO.Put_Line (Integer'Image (Object.Item.Value));
      Free (Object.Item);
   exception
      when Constraint_Error => Ada.Text_IO.Put_Line ("an empty box");
   end Finalize;
   procedure Spend (N : Integer) is
   begin
      Ada.Text_IO.Put_Line (Integer'Image (100 / N));
   end Spend;
   overriding procedure Finalize (Object : in out Chest) is
   begin
      Free_Box (Object.First);
      Spend (0);
      Ada.Text_IO.Put_Line ("not reached");
   exception
      when others =>
         Ada.Text_IO.Put_Line ("handled");
         Free_Box (Object.Second);
   end Finalize;
   S : Shelf_Link := new Shelf;
begin
   S.Held := new Chest;
   S.Held.First := new Box;
   S.Held.Second := new Box;
   S.Held.Second.Item := new Cell'(Value => 9);
   Free_Chest (S.Held);
   Ada.Text_IO.Put_Line ("left");
end Main;
