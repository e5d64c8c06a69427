with Ada.Finalization; with Ada.Text_IO; with Ada.Unchecked_Deallocation;
procedure Main is
   type Spot is record X : Integer := 0; Y : Integer := 0; end record;
   type Cell is record Place : Spot; end record;
   type Ref is access Cell;
   type Cross is record Upper : Spot; Lower : Spot; end record;
   type Pen is access Cross;
   type Doc is new Ada.Finalization.Controlled with record Item : Ref; end record;
   overriding procedure Adjust (Object : in out Doc);
   overriding procedure Finalize (Object : in out Doc);
   type Line is new Ada.Finalization.Controlled with record Drawn : Pen; Count : Integer := 0; end record;
   overriding procedure Adjust (Object : in out Line);
   overriding procedure Finalize (Object : in out Line);
   type Sign is record Text : Doc; Under : Line; end record;
   procedure Free is new Ada.Unchecked_Deallocation (Cell, Ref);
   procedure Free_Pen is new Ada.Unchecked_Deallocation (Cross, Pen);
   overriding procedure Adjust (Object : in out Doc) is
   begin
      Object.Item := new Cell'(Place => Object.Item.Place);
   exception
      when Constraint_Error | Storage_Error => Object.Item := null;
   end Adjust;
   overriding procedure Finalize (Object : in out Doc) is
   begin
      Free (Object.Item);
   end Finalize;
   overriding procedure Adjust (Object : in out Line) is
      Seen : access Cross := Object.Drawn;
   begin
      Object.Count := Object.Count + 1;
      if Seen = null then
         Object.Drawn := null;
      else
         Object.Drawn := new Cross'(Upper => Seen.Lower, Lower => Seen.Upper);
      end if;
   exception
      when others => Object.Drawn := null;
   end Adjust;
   overriding procedure Finalize (Object : in out Line) is
   begin
      Free_Pen (Object.Drawn);
   end Finalize;
   One : Sign;
   Two : Sign;
begin
   One.Text.Item := new Cell;
   One.Text.Item.Place.X := 2;
   One.Under.Drawn := new Cross;
   One.Under.Drawn.Upper.Y := 6;
   Two := One;
   Two.Text.Item.Place.X := 3;
   declare
      Three : Sign := Two;
   begin
      Ada.Text_IO.Put_Line (Integer'Image (One.Text.Item.Place.X));
      Ada.Text_IO.Put_Line (Integer'Image (Three.Text.Item.Place.X));
      Ada.Text_IO.Put_Line (Integer'Image (Two.Under.Drawn.Lower.Y));
      Ada.Text_IO.Put_Line (Integer'Image (Three.Under.Drawn.Upper.Y));
      Ada.Text_IO.Put_Line (Integer'Image (Three.Under.Count));
   end;
end Main;
