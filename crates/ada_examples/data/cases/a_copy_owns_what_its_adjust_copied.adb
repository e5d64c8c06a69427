with Ada.Finalization; with Ada.Text_IO; with Ada.Unchecked_Deallocation;
procedure Main is
   type Leaf is record Weight : Integer := 1; end record;
   type Stem is access Leaf;
   type Plant is new Ada.Finalization.Controlled with record Grown : Stem; end record;
   overriding procedure Adjust (Object : in out Plant);
   overriding procedure Finalize (Object : in out Plant);
   procedure Free is new Ada.Unchecked_Deallocation (Leaf, Stem);
   overriding procedure Adjust (Object : in out Plant) is
   begin
      Object.Grown := new Leaf'(Weight => Object.Grown.Weight);
   exception
      when others => Object.Grown := null;
   end Adjust;
   overriding procedure Finalize (Object : in out Plant) is
   begin
      Free (Object.Grown);
   end Finalize;
   First  : Plant;
   Second : Plant;
begin
   First.Grown := new Leaf'(Weight => 4);
   Second := First;
   First.Grown.Weight := 9;
   Ada.Text_IO.Put_Line (Integer'Image (Second.Grown.Weight));
   Second := First;
   Ada.Text_IO.Put_Line (Integer'Image (Second.Grown.Weight));
end Main;
