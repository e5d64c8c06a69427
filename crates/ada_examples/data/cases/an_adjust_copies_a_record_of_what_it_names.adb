with Ada.Finalization; with Ada.Text_IO; with Ada.Unchecked_Deallocation;
procedure Main is
   type Spot is record X : Integer := 0; Y : Integer := 0; end record;
   type Cell is record Place : Spot; Marked : Boolean := False; end record;
   type Ref is access Cell;
   type Doc is new Ada.Finalization.Controlled with record Item : Ref; end record;
   overriding procedure Adjust (Object : in out Doc);
   overriding procedure Finalize (Object : in out Doc);
   procedure Free is new Ada.Unchecked_Deallocation (Cell, Ref);
   overriding procedure Adjust (Object : in out Doc) is
   begin
      Object.Item := new Cell'(Place => Object.Item.Place, Marked => Object.Item.Marked);
   exception
      when Constraint_Error => Object.Item := null;
      when Storage_Error => Object.Item := null;
   end Adjust;
   overriding procedure Finalize (Object : in out Doc) is
   begin
      Free (Object.Item);
   end Finalize;
   One   : Doc;
   Two   : Doc;
   Empty : Doc;
begin
   One.Item := new Cell;
   One.Item.Place.X := 3;
   One.Item.Marked := True;
   Two := One;
   Two.Item.Place.X := 4;
   Ada.Text_IO.Put_Line (Integer'Image (One.Item.Place.X));
   Ada.Text_IO.Put_Line (Integer'Image (Two.Item.Place.X));
   if Two.Item.Marked then
      Ada.Text_IO.Put_Line ("marked");
   end if;
   declare
      Three : Doc := Two;
   begin
      Two := Empty;
      Ada.Text_IO.Put_Line (Integer'Image (Three.Item.Place.X));
      if Two.Item = null then
         Ada.Text_IO.Put_Line ("empty");
      end if;
   end;
end Main;
