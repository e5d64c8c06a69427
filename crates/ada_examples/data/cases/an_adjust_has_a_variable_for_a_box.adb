with Ada.Finalization; with Ada.Text_IO; with Ada.Unchecked_Deallocation;
procedure Main is
   type Leaf is record Weight : Integer := 1; end record;
   type Stem is access Leaf;
   type Count is new Ada.Finalization.Limited_Controlled with record Told : Integer := 5; end record;
   overriding procedure Finalize (Object : in out Count);
   type Box is access Count;
   type Plant is new Ada.Finalization.Controlled with record Grown : Stem; end record;
   overriding procedure Adjust (Object : in out Plant);
   overriding procedure Finalize (Object : in out Plant);
   procedure Free is new Ada.Unchecked_Deallocation (Leaf, Stem);
   overriding procedure Finalize (Object : in out Count) is
   begin
      Ada.Text_IO.Put_Line (Integer'Image (Object.Told));
   end Finalize;
   overriding procedure Adjust (Object : in out Plant) is
      Spare : Box;
   begin
      if Spare = null then
         Object.Grown := new Leaf'(Weight => Object.Grown.Weight);
      else
         Object.Grown := null;
      end if;
   exception
      when others => Object.Grown := null;
   end Adjust;
   overriding procedure Finalize (Object : in out Plant) is
   begin
      Free (Object.Grown);
   end Finalize;
   Kept   : Box;
   First  : Plant;
   Second : Plant;
begin
   Kept := new Count;
   First.Grown := new Leaf'(Weight => 4);
   Second := First;
   First.Grown.Weight := 9;
   Ada.Text_IO.Put_Line (Integer'Image (Second.Grown.Weight));
   Kept.Told := 6;
end Main;
