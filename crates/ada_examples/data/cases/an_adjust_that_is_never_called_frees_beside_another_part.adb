with Ada.Finalization; with Ada.Text_IO; with Ada.Unchecked_Deallocation;
procedure Main is
   type Leaf is record Veins : Integer := 5; end record;
   type Stem is access Leaf;
   type Twig is new Ada.Finalization.Controlled with record Grown : Stem; end record;
   overriding procedure Adjust (Object : in out Twig);
   type Branch is record Lower : Twig; Upper : Twig; end record;
   procedure Free is new Ada.Unchecked_Deallocation (Leaf, Stem);
   overriding procedure Adjust (Object : in out Twig) is
   begin
      Object.Grown := new Leaf'(Veins => Object.Grown.Veins);
      if Object.Grown.Veins = 0 then
         Free (Object.Grown);
      end if;
   exception
      when others => Object.Grown := null;
   end Adjust;
   Old : Branch;
begin
   Old.Upper.Grown := new Leaf;
   Ada.Text_IO.Put_Line (Integer'Image (Old.Upper.Grown.Veins));
end Main;
