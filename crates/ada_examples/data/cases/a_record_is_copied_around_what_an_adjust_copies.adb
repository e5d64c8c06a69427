with Ada.Finalization; with Ada.Text_IO; with Ada.Unchecked_Deallocation;
procedure Main is
   type Stone is record Colour : Integer := 1; end record;
   type Mount is access Stone;
   type Ring is new Ada.Finalization.Controlled with record Gem : Mount; end record;
   overriding procedure Adjust (Object : in out Ring);
   overriding procedure Finalize (Object : in out Ring);
   type Finger is record Bent : Boolean := False; Worn : Ring; Nails : Integer := 1; end record;
   type Hand is record Thumb : Finger; Left : Boolean := True; end record;
   procedure Free is new Ada.Unchecked_Deallocation (Stone, Mount);
   overriding procedure Adjust (Object : in out Ring) is
   begin
      if Object.Gem = null then
         Object.Gem := null;
         return;
      end if;
      Object.Gem := new Stone'(Colour => Object.Gem.Colour + 1);
   exception
      when others => Object.Gem := null;
   end Adjust;
   overriding procedure Finalize (Object : in out Ring) is
   begin
      Free (Object.Gem);
   end Finalize;
   One : Hand;
begin
   One.Thumb.Worn.Gem := new Stone;
   One.Thumb.Nails := 5;
   declare
      Two : Hand := One;
      Tip : Finger;
   begin
      Tip := Two.Thumb;
      Two.Thumb.Worn := Tip.Worn;
      One := Two;
      Ada.Text_IO.Put_Line (Integer'Image (Tip.Worn.Gem.Colour));
   end;
   Ada.Text_IO.Put_Line (Integer'Image (One.Thumb.Worn.Gem.Colour * One.Thumb.Nails));
end Main;
