with Ada.Finalization; with Ada.Text_IO; with Ada.Unchecked_Deallocation;
procedure Main is
   type Cell is record Value : Integer := 0; end record;
   type Ref is access Cell;
   procedure Free is new Ada.Unchecked_Deallocation (Cell, Ref);
   type Box is new Ada.Finalization.Limited_Controlled with record Item : Ref; end record;
   overriding procedure Finalize (Object : in out Box);
   type Box_Link is access Box;
   procedure Free_Box is new Ada.Unchecked_Deallocation (Box, Box_Link);
   type Chest is new Ada.Finalization.Limited_Controlled with record Held : Box_Link; end record;
   overriding procedure Finalize (Object : in out Chest);
   type Chest_Link is access Chest;
   procedure Free_Chest is new Ada.Unchecked_Deallocation (Chest, Chest_Link);
   type Cart is new Ada.Finalization.Limited_Controlled with record Load : Chest_Link; end record;
   overriding procedure Finalize (Object : in out Cart);
   type Cart_Link is access Cart;
   procedure Free_Cart is new Ada.Unchecked_Deallocation (Cart, Cart_Link);
   type Yard is record Place : Cart_Link; end record;
   type Yard_Link is access Yard;
   overriding procedure Finalize (Object : in out Box) is
   begin
      Ada.Text_IO.Put_Line ("      box");
      Free (Object.Item);
      Ada.Text_IO.Put_Line ("      .");
   end Finalize;
   overriding procedure Finalize (Object : in out Chest) is
   begin
      Ada.Text_IO.Put_Line ("   chest");
      Free_Box (Object.Held);
      Ada.Text_IO.Put_Line ("   .");
   end Finalize;
   overriding procedure Finalize (Object : in out Cart) is
   begin
      Ada.Text_IO.Put_Line ("cart");
      Free_Chest (Object.Load);
      Ada.Text_IO.Put_Line (".");
   end Finalize;
   Y : Yard_Link := new Yard;
begin
   Y.Place := new Cart;
   Y.Place.Load := new Chest;
   Y.Place.Load.Held := new Box;
   Y.Place.Load.Held.Item := new Cell'(Value => 5);
   Free_Cart (Y.Place);
   if Y.Place = null then
      Ada.Text_IO.Put_Line ("the yard is empty");
   end if;
   Free_Cart (Y.Place);
   Y.Place := new Cart;
   Free_Cart (Y.Place);
end Main;
