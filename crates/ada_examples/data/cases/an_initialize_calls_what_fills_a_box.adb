with Ada.Finalization; with Ada.Text_IO; with Ada.Unchecked_Deallocation;
procedure Main is
   type Cell is record Value : Integer := 6; end record;
   type Ref is access Cell;
   procedure Free is new Ada.Unchecked_Deallocation (Cell, Ref);
   type Box is new Ada.Finalization.Limited_Controlled with record Item : Ref; end record;
   overriding procedure Initialize (Object : in out Box);
   overriding procedure Finalize (Object : in out Box);
   type Box_Link is access Box;
   procedure Free_Box is new Ada.Unchecked_Deallocation (Box, Box_Link);
   type Chest is new Ada.Finalization.Limited_Controlled with record Held : Box_Link; end record;
   overriding procedure Initialize (Object : in out Chest);
   overriding procedure Finalize (Object : in out Chest);
   overriding procedure Initialize (Object : in out Box) is
      Old : Ref;
   begin
      Old := new Cell;
      Old.Value := 1;
      Free (Old);
      Object.Item := new Cell;
   end Initialize;
   overriding procedure Finalize (Object : in out Box) is
   begin
      Ada.Text_IO.Put_Line ("no box");
      Free (Object.Item);
   end Finalize;
   procedure Fill (L : in out Box_Link) is
      Fresh : Box_Link := new Box;
   begin
      Free_Box (L);
      L := Fresh;
      L.Item.Value := L.Item.Value + 1;
   end Fill;
   overriding procedure Initialize (Object : in out Chest) is
      L : Box_Link;
   begin
      Fill (L);
      Fill (L);
      Ada.Text_IO.Put_Line (Integer'Image (L.Item.Value));
      Object.Held := L;
   end Initialize;
   overriding procedure Finalize (Object : in out Chest) is
   begin
      Free_Box (Object.Held);
   end Finalize;
   C : Chest;
begin
   Ada.Text_IO.Put_Line (Integer'Image (C.Held.Item.Value));
end Main;
