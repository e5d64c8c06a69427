with Ada.Finalization;
procedure Main is
   type Mark is new Ada.Finalization.Controlled with record X : Integer := 0; end record;
   type Spot is record X : Integer := 0; end record;
   type Pen is access Spot;
   type Line is new Ada.Finalization.Controlled with record From : Mark; To : Mark; Drawn : Pen; end record;
   overriding procedure Adjust (Object : in out Line);
   overriding procedure Adjust (Object : in out Line) is
   begin
      Object.Drawn := null;
      Object.From := Object.To;
   end Adjust;
   One : Line;
   Two : Line;
begin
   Two := One;
end Main;
