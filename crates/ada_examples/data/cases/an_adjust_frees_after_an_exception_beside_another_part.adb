with Ada.Finalization; with Ada.Text_IO; with Ada.Unchecked_Deallocation;
procedure Main is
   type Leaf is record Veins : Integer := 5; end record;
   type Stem is access Leaf;
   type Twig is new Ada.Finalization.Controlled with record Grown : Stem; Count : Integer := 0; end record;
   overriding procedure Adjust (Object : in out Twig);
   type Branch is record Lower : Twig; Upper : Twig; end record;
   procedure Free is new Ada.Unchecked_Deallocation (Leaf, Stem);
   overriding procedure Adjust (Object : in out Twig) is
   begin
      Object.Grown := new Leaf'(Veins => Object.Grown.Veins);
      begin
         Object.Count := 60 / Object.Grown.Veins;
      exception
         when Constraint_Error => Free (Object.Grown);
      end;
   exception
      when others => Object.Grown := null;
   end Adjust;
   Old : Branch;
   Recent : Branch;
begin
   Old.Lower.Grown := new Leaf;
   Old.Lower.Grown.Veins := 0;
   Old.Upper.Grown := new Leaf;
   Recent := Old;
   if Recent.Lower.Grown = null then
      Ada.Text_IO.Put_Line ("freed");
   end if;
   Ada.Text_IO.Put_Line (Integer'Image (Recent.Upper.Count));
   Ada.Text_IO.Put_Line (Integer'Image (Old.Upper.Grown.Veins));
end Main;
