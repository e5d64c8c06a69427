with Ada.Finalization; with Ada.Text_IO; with Ada.Unchecked_Deallocation;
procedure Main is
   type Stone is record Weight : Integer := 1; end record;
   type Gem is access Stone;
   type Ring is new Ada.Finalization.Controlled with record Set : Gem; end record;
   overriding procedure Adjust (Object : in out Ring);
   overriding procedure Finalize (Object : in out Ring);
   type Hand is record Thumb : Ring; Rings : Integer := 2; Index : Ring; end record;
   procedure Free is new Ada.Unchecked_Deallocation (Stone, Gem);
   overriding procedure Adjust (Object : in out Ring) is
   begin
      Object.Set := new Stone'(Weight => Object.Set.Weight);
   exception
      when others => Object.Set := null;
   end Adjust;
   overriding procedure Finalize (Object : in out Ring) is
   begin
      Free (Object.Set);
   end Finalize;
   Left : Hand;
begin
   Left.Thumb.Set := new Stone'(Weight => 3);
   Left.Index.Set := new Stone'(Weight => 5);
   declare
      Cast : Hand := Left;
      Right : Hand;
   begin
      Cast.Index.Set.Weight := 7;
      Right.Thumb.Set := new Stone;
      Right := Cast;
      Right.Thumb.Set.Weight := 9;
      Ada.Text_IO.Put_Line (Integer'Image (Right.Thumb.Set.Weight));
      Ada.Text_IO.Put_Line (Integer'Image (Right.Index.Set.Weight));
      Ada.Text_IO.Put_Line (Integer'Image (Cast.Thumb.Set.Weight));
   end;
   Ada.Text_IO.Put_Line (Integer'Image (Left.Thumb.Set.Weight));
   Ada.Text_IO.Put_Line (Integer'Image (Left.Index.Set.Weight));
end Main;
