with Ada.Finalization; with Ada.Text_IO; with Ada.Unchecked_Deallocation;
procedure Main is
   type Stamp is record Price : Integer := 3; end record;
   type Gum is access Stamp;
   type Cover is record Paid : Gum; end record;
   type Post is access Cover;
   type Bag is new Ada.Finalization.Controlled with record Top : Post; end record;
   overriding procedure Adjust (Object : in out Bag);
   procedure Free is new Ada.Unchecked_Deallocation (Stamp, Gum);
   overriding procedure Adjust (Object : in out Bag) is
   begin
      Ada.Text_IO.Put_Line (Integer'Image (Object.Top.Paid.Price));
      Free (Object.Top.Paid);
      Object.Top := null;
   exception
      when Constraint_Error => Object.Top := null;
   end Adjust;
   Full : Bag;
   Flat : Bag;
begin
   Full.Top := new Cover;
   Full.Top.Paid := new Stamp;
   Flat := Full;
   Flat := Full;
end Main;
