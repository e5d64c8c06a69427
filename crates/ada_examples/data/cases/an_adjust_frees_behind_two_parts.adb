with Ada.Finalization; with Ada.Text_IO; with Ada.Unchecked_Deallocation;
procedure Main is
   type Stamp is record Price : Integer := 3; end record;
   type Gum is access Stamp;
   type Cover is record Paid : Gum; end record;
   type Post is access Cover;
   type Bag is new Ada.Finalization.Controlled with record Top : Post; end record;
   overriding procedure Adjust (Object : in out Bag);
   type Cart is record Front : Bag; Back : Bag; end record;
   procedure Free is new Ada.Unchecked_Deallocation (Stamp, Gum);
   overriding procedure Adjust (Object : in out Bag) is
   begin
      Ada.Text_IO.Put_Line (Integer'Image (Object.Top.Paid.Price));
      Free (Object.Top.Paid);
      Object.Top := null;
   exception
      when Constraint_Error => Object.Top := null;
   end Adjust;
   Full : Cart;
   Flat : Cart;
begin
   Full.Front.Top := new Cover;
   Full.Front.Top.Paid := new Stamp;
   Full.Back.Top := new Cover;
   Full.Back.Top.Paid := new Stamp;
   Full.Back.Top.Paid.Price := 7;
   Flat := Full;
   Flat := Full;
end Main;
