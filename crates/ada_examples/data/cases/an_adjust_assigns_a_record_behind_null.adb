with Ada.Finalization; with Ada.Text_IO; with Ada.Unchecked_Deallocation;
procedure Main is
   type Spot is record X : Integer := 0; Y : Integer := 0; end record;
   type Pen is access Spot;
   type Line is new Ada.Finalization.Controlled with record From : Spot; Drawn : Pen; end record;
   overriding procedure Adjust (Object : in out Line);
   overriding procedure Finalize (Object : in out Line);
   procedure Free is new Ada.Unchecked_Deallocation (Spot, Pen);
   overriding procedure Adjust (Object : in out Line) is
   begin
      begin
         Object.From := Object.Drawn.all;
         Ada.Text_IO.Put_Line ("drawn");
      exception
         when Constraint_Error => Ada.Text_IO.Put_Line ("not drawn");
      end;
      Object.Drawn := null;
      Object.Drawn.all := Object.From;
      Ada.Text_IO.Put_Line ("never");
   exception
      when others => Object.From := Spot'(X => Object.From.Y, Y => 9);
   end Adjust;
   overriding procedure Finalize (Object : in out Line) is
   begin
      Free (Object.Drawn);
   end Finalize;
   One : Line;
   Two : Line;
begin
   One.From.Y := 2;
   Two := One;
   Ada.Text_IO.Put_Line (Integer'Image (Two.From.X));
   One.Drawn := new Spot'(X => 3, Y => 4);
   Two := One;
   Ada.Text_IO.Put_Line (Integer'Image (Two.From.X));
   Ada.Text_IO.Put_Line (Integer'Image (Two.From.Y));
end Main;
