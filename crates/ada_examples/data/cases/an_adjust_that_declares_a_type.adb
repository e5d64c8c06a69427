with Ada.Finalization;
procedure Main is
   type Spot is record X : Integer := 0; Y : Integer := 0; end record;
   type Pen is access Spot;
   type Line is new Ada.Finalization.Controlled with record Length : Integer := 0; Drawn : Pen; end record;
   overriding procedure Adjust (Object : in out Line);
   overriding procedure Adjust (Object : in out Line) is
   begin
      declare
         type Brush is access Spot;
         Wet : Brush := new Spot;
      begin
         Object.Length := Wet.X;
      end;
      Object.Drawn := null;
   exception
      when others => Object.Drawn := null;
   end Adjust;
   One : Line;
   Two : Line;
begin
   Two := One;
end Main;
