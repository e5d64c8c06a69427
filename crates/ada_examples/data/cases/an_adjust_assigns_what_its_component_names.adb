with Ada.Finalization; with Ada.Text_IO; with Ada.Unchecked_Deallocation;
procedure Main is
   type Spot is record X : Integer := 0; Y : Integer := 0; end record;
   type Pen is access Spot;
   type Line is new Ada.Finalization.Controlled with record Drawn : Pen; end record;
   overriding procedure Adjust (Object : in out Line);
   overriding procedure Finalize (Object : in out Line);
   procedure Free is new Ada.Unchecked_Deallocation (Spot, Pen);
   overriding procedure Adjust (Object : in out Line) is
      Mine : Pen;
   begin
      Mine := new Spot;
      if Object.Drawn /= null then
         Mine.all := Object.Drawn.all;
      end if;
      Object.Drawn := Mine;
      Object.Drawn.all := Spot'(X => Object.Drawn.X + 1, Y => 7);
   exception
      when others => Object.Drawn := null;
   end Adjust;
   overriding procedure Finalize (Object : in out Line) is
   begin
      Free (Object.Drawn);
   end Finalize;
   One : Line;
   Two : Line;
begin
   One.Drawn := new Spot'(X => 3, Y => 4);
   Two := One;
   Ada.Text_IO.Put_Line (Integer'Image (One.Drawn.X));
   Ada.Text_IO.Put_Line (Integer'Image (Two.Drawn.X));
   Ada.Text_IO.Put_Line (Integer'Image (Two.Drawn.Y));
end Main;
