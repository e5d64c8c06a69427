with Ada.Finalization; with Ada.Text_IO; with Ada.Unchecked_Deallocation;
procedure Main is
   type Cell is record Value : Integer := 4; end record;
   type Ref is access Cell;
   procedure Free is new Ada.Unchecked_Deallocation (Cell, Ref);
   type Box is new Ada.Finalization.Limited_Controlled with record Item : Ref; end record;
   overriding procedure Initialize (Object : in out Box);
   overriding procedure Finalize (Object : in out Box);
   type Box_Link is access Box;
   procedure Free_Box is new Ada.Unchecked_Deallocation (Box, Box_Link);
   type Chest is new Ada.Finalization.Limited_Controlled with record Left : Box_Link; Right : Box_Link; end record;
   overriding procedure Initialize (Object : in out Chest);
   overriding procedure Finalize (Object : in out Chest);
   type Chest_Link is access Chest;
   procedure Free_Chest is new Ada.Unchecked_Deallocation (Chest, Chest_Link);
   type Cart is new Ada.Finalization.Limited_Controlled with record Load : Chest_Link; end record;
   overriding procedure Initialize (Object : in out Cart);
   overriding procedure Finalize (Object : in out Cart);
   type Cart_Link is access Cart;
   procedure Free_Cart is new Ada.Unchecked_Deallocation (Cart, Cart_Link);
   overriding procedure Initialize (Object : in out Box) is
   begin
      Object.Item := new Cell;
      Ada.Text_IO.Put_Line ("box");
   end Initialize;
   overriding procedure Finalize (Object : in out Box) is
   begin
      Free (Object.Item);
      Ada.Text_IO.Put_Line ("no box");
   end Finalize;
   overriding procedure Initialize (Object : in out Chest) is
   begin
      Object.Left := new Box;
      Object.Right := new Box;
      Object.Right.Item.Value := Object.Left.Item.Value + 1;
   end Initialize;
   overriding procedure Finalize (Object : in out Chest) is
   begin
      Free_Box (Object.Left);
      Free_Box (Object.Right);
   end Finalize;
   overriding procedure Initialize (Object : in out Cart) is
   begin
      Object.Load := new Chest;
      Ada.Text_IO.Put_Line (Integer'Image (Object.Load.Right.Item.Value));
   end Initialize;
   overriding procedure Finalize (Object : in out Cart) is
   begin
      Free_Chest (Object.Load);
   end Finalize;
   C : Cart_Link := new Cart;
   D : Cart;
begin
   Free_Cart (C);
   Ada.Text_IO.Put_Line (Integer'Image (D.Load.Left.Item.Value));
end Main;
