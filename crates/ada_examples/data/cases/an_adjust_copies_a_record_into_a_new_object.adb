with Ada.Finalization;
procedure Main is
   type Spot is record X : Integer := 0; Y : Integer := 0; end record;
   type Cross is record Place : Spot; end record;
   type Pen is access Cross;
   type Line is new Ada.Finalization.Controlled with record From : Spot; Drawn : Pen; end record;
   overriding procedure Adjust (Object : in out Line);
   overriding procedure Adjust (Object : in out Line) is
   begin
      Object.Drawn := new Cross'(Place => Object.From);
   exception
      when others => Object.Drawn := null;
   end Adjust;
   One : Line;
   Two : Line;
begin
   Two := One;
end Main;
