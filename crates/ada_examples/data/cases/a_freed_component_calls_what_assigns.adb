with Ada.Finalization; with Ada.Text_IO; with Ada.Unchecked_Deallocation;
procedure Main is
   type Leaf is record Value : Integer := 3; end record;
   type Leaf_Link is access Leaf;
   procedure Free_Leaf is new Ada.Unchecked_Deallocation (Leaf, Leaf_Link);
   type Tally is new Ada.Finalization.Controlled with record Count : Integer := 1; end record;
   overriding procedure Adjust (Object : in out Tally);
   overriding procedure Finalize (Object : in out Tally);
   type Box is new Ada.Finalization.Limited_Controlled with record L : Leaf_Link; end record;
   overriding procedure Finalize (Object : in out Box);
   type Box_Link is access Box;
   procedure Free is new Ada.Unchecked_Deallocation (Box, Box_Link);
   type Shelf is record Content : Box_Link; end record;
   type Shelf_Link is access Shelf;
   overriding procedure Adjust (Object : in out Tally) is
   begin
      Object.Count := 6;
      Ada.Text_IO.Put_Line ("adjusted");
   end Adjust;
   overriding procedure Finalize (Object : in out Tally) is
   begin
      Ada.Text_IO.Put_Line (Integer'Image (Object.Count));
   end Finalize;
   procedure Copy (Count : in Integer) is
      One : Tally;
      Two : Tally;
   begin
      One.Count := Count;
      Two := One;
   end Copy;
   overriding procedure Finalize (Object : in out Box) is
   begin
      Copy (3);
      Free_Leaf (Object.L);
      Copy (4);
   end Finalize;
   S : Shelf_Link := new Shelf;
begin
   S.all.Content := new Box;
   S.all.Content.all.L := new Leaf;
   Free (S.all.Content);
   Ada.Text_IO.Put_Line ("freed");
end Main;
