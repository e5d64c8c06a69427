with Ada.Finalization; with Ada.Text_IO; with Ada.Unchecked_Deallocation;
procedure Main is
   type Cell is record Value : Integer := 0; end record;
   type Ref is access Cell;
   procedure Free is new Ada.Unchecked_Deallocation (Cell, Ref);
   type Box is new Ada.Finalization.Limited_Controlled with record Item : Ref; end record;
   overriding procedure Finalize (Object : in out Box);
   type Box_Link is access Box;
   procedure Free_Box is new Ada.Unchecked_Deallocation (Box, Box_Link);
   type Chest is new Ada.Finalization.Limited_Controlled with record Held : Box_Link; end record;
   overriding procedure Finalize (Object : in out Chest);
   type Chest_Link is access Chest;
   procedure Free_Chest is new Ada.Unchecked_Deallocation (Chest, Chest_Link);
   type Cart is new Ada.Finalization.Limited_Controlled with record Load : Chest_Link; end record;
   overriding procedure Finalize (Object : in out Cart);
   type Cart_Link is access Cart;
   procedure Free_Cart is new Ada.Unchecked_Deallocation (Cart, Cart_Link);
   overriding procedure Finalize (Object : in out Box) is
   begin
      Ada.Text_IO.Put_Line ("      box");
      Free (Object.Item);
      Ada.Text_IO.Put_Line ("      .");
   end Finalize;
   overriding procedure Finalize (Object : in out Chest) is
      Mine : Box_Link;
   begin
      Ada.Text_IO.Put_Line ("   chest");
      Mine := Object.Held;
      Object.Held := null;
      Free_Box (Mine);
      Ada.Text_IO.Put_Line ("   .");
   end Finalize;
   overriding procedure Finalize (Object : in out Cart) is
      Mine : Chest_Link;
   begin
      Ada.Text_IO.Put_Line ("cart");
      Mine := Object.Load;
      Object.Load := null;
      Free_Chest (Mine);
      Ada.Text_IO.Put_Line (".");
   end Finalize;
   C : Cart_Link := new Cart;
   D : Cart;
begin
   C.Load := new Chest;
   C.Load.Held := new Box;
   C.Load.Held.Item := new Cell'(Value => 5);
   D.Load := new Chest;
   D.Load.Held := new Box;
   Free_Cart (C);
   Ada.Text_IO.Put_Line ("left");
end Main;
