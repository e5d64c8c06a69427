with Ada.Finalization; with Ada.Text_IO;
procedure Main is
   type Spot is record X : Integer := 5; Y : Integer := 0; end record;
   type Line is new Ada.Finalization.Controlled with record From : Spot; Length : Integer := 0; end record;
   overriding procedure Adjust (Object : in out Line);
   overriding procedure Adjust (Object : in out Line) is
      Middle : Spot := Object.From;
   begin
      Middle.Y := 1;
      Object.Length := Middle.X;
      Object.From := Middle;
   end Adjust;
   One : Line;
   Two : Line;
begin
   Two := One;
   Ada.Text_IO.Put_Line (Integer'Image (Two.Length));
   Ada.Text_IO.Put_Line (Integer'Image (Two.From.Y));
end Main;
