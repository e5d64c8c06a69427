with Ada.Finalization; with Ada.Text_IO; with Ada.Unchecked_Deallocation;
procedure Main is
   type Spot is record X : Integer := 0; Y : Integer := 0; end record;
   type Cross is record Upper : Spot; Lower : Spot; end record;
   type Pen is access Cross;
   type Line is new Ada.Finalization.Controlled with record From : Cross; Drawn : Pen; To : Cross; end record;
   overriding procedure Adjust (Object : in out Line);
   overriding procedure Finalize (Object : in out Line);
   procedure Free is new Ada.Unchecked_Deallocation (Cross, Pen);
   overriding procedure Adjust (Object : in out Line) is
   begin
      Object.To := Cross'(Upper => Object.From.Lower, Lower => Object.Drawn.Upper);
      Object.From.Lower := Object.To.Lower;
      Object.Drawn := new Cross'(Upper => Object.To.Upper, Lower => Object.From.Upper);
   exception
      when others => Object.Drawn := null;
   end Adjust;
   overriding procedure Finalize (Object : in out Line) is
   begin
      Free (Object.Drawn);
   end Finalize;
   One : Line;
   Two : Line;
begin
   One.From.Lower.X := 3;
   One.Drawn := new Cross;
   One.Drawn.Upper.Y := 5;
   Two := One;
   Ada.Text_IO.Put_Line (Integer'Image (Two.To.Upper.X));
   Ada.Text_IO.Put_Line (Integer'Image (Two.From.Lower.Y));
   Ada.Text_IO.Put_Line (Integer'Image (Two.Drawn.Upper.X));
end Main;
