with Ada.Finalization; with Ada.Text_IO; with Ada.Unchecked_Deallocation;
procedure Main is
   type Seed is record Weight : Integer := 0; end record;
   type Core is access Seed;
   procedure Free is new Ada.Unchecked_Deallocation (Seed, Core);
   type Apple is new Ada.Finalization.Controlled with record Inside : Core; end record;
   overriding procedure Adjust (Object : in out Apple);
   overriding procedure Finalize (Object : in out Apple);
   type Tally is new Ada.Finalization.Controlled with record Copies : Integer := 0; end record;
   overriding procedure Adjust (Object : in out Tally);
   type Label is new Ada.Finalization.Controlled with record Colour : Integer := 3; end record;
   type Leaf is record Count : Tally; Outside : Label; end record;
   type Stem is access Leaf;
   procedure Free_Leaf is new Ada.Unchecked_Deallocation (Leaf, Stem);
   type Twig is record Left : Stem; Right : Stem; end record;
   type Link is access Twig;
   overriding procedure Adjust (Object : in out Apple) is
   begin
      Object.Inside := new Seed'(Weight => Object.Inside.Weight + 1);
   exception
      when others => Object.Inside := null;
   end Adjust;
   overriding procedure Finalize (Object : in out Apple) is
   begin
      Free (Object.Inside);
   end Finalize;
   overriding procedure Adjust (Object : in out Tally) is
   begin
      Object.Copies := Object.Copies + 1;
   exception
      when Constraint_Error => Object.Copies := 0;
   end Adjust;
   Grown : Link := new Twig;
   Green : Apple;
   Red   : Apple;
begin
   Green.Inside := new Seed'(Weight => 4);
   Grown.Left := new Leaf;
   Grown.Right := new Leaf;
   Grown.Left.Count := Grown.Right.Count;
   Grown.Right.all := Grown.Left.all;
   Red := Green;
   Green := Red;
   Free_Leaf (Grown.Left);
   Ada.Text_IO.Put_Line (Integer'Image (Grown.Right.Count.Copies));
   Ada.Text_IO.Put_Line (Integer'Image (Red.Inside.Weight));
   Ada.Text_IO.Put_Line (Integer'Image (Green.Inside.Weight));
end Main;
