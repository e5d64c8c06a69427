with Ada.Finalization; with Ada.Text_IO; with Ada.Unchecked_Deallocation;
procedure Main is
   type Spot is record X : Integer := 0; Y : Integer := 0; end record;
   type Cell is record Place : Spot; Weight : Integer := 0; end record;
   type Ref is access Cell;
   type Doc is new Ada.Finalization.Controlled with record Item : Ref; end record;
   overriding procedure Adjust (Object : in out Doc);
   overriding procedure Finalize (Object : in out Doc);
   procedure Free is new Ada.Unchecked_Deallocation (Cell, Ref);
   overriding procedure Adjust (Object : in out Doc) is
      Mine : Ref;
      Seen : access Cell := Object.Item;
   begin
      if Seen /= null then
         Mine := new Cell'(Place => Seen.Place, Weight => Seen.Weight + 1);
         Mine.Place.Y := 9;
      end if;
      Object.Item := new Cell'(Place => Mine.Place, Weight => Mine.Weight + 1);
      Free (Mine);
   exception
      when others => Object.Item := null;
   end Adjust;
   overriding procedure Finalize (Object : in out Doc) is
   begin
      Free (Object.Item);
   end Finalize;
   One : Doc;
   Two : Doc;
begin
   Two := One;
   if Two.Item = null then
      Ada.Text_IO.Put_Line ("none");
   end if;
   One.Item := new Cell;
   One.Item.Place.X := 5;
   Two := One;
   Ada.Text_IO.Put_Line (Integer'Image (One.Item.Place.Y));
   Ada.Text_IO.Put_Line (Integer'Image (Two.Item.Place.X));
   Ada.Text_IO.Put_Line (Integer'Image (Two.Item.Place.Y));
   Ada.Text_IO.Put_Line (Integer'Image (Two.Item.Weight));
end Main;
