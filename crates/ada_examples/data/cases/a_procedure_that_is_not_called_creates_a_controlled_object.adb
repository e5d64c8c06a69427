with Ada.Finalization; with Ada.Unchecked_Deallocation;
procedure Main is
   type Leaf is record Veins : Integer := 5; end record;
   type Twig is new Ada.Finalization.Limited_Controlled with record Age : Integer := 0; end record;
   overriding procedure Finalize (Object : in out Twig);
   overriding procedure Finalize (Object : in out Twig) is
      type Stem is access Leaf;
      procedure Free is new Ada.Unchecked_Deallocation (Leaf, Stem);
      Grown : Stem;
   begin
      Free (Grown);
      Object.Age := 0;
   end Finalize;
   procedure Grow is
      One : Twig;
   begin
      One.Age := 1;
   end Grow;
begin
   null;
end Main;
