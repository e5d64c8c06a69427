with Ada.Finalization; with Ada.Text_IO; with Ada.Unchecked_Deallocation;
procedure Main is
   type Spot is record X : Integer := 0; Y : Integer := 0; end record;
   type Pen is access Spot;
   type Line is new Ada.Finalization.Controlled with record From : Spot; Drawn : Pen; end record;
   overriding procedure Adjust (Object : in out Line);
   overriding procedure Finalize (Object : in out Line);
   type Pair is record First : Line; Second : Line; end record;
   procedure Free is new Ada.Unchecked_Deallocation (Spot, Pen);
   overriding procedure Adjust (Object : in out Line) is
      Mine : Pen;
   begin
      Mine := new Spot;
      Mine.all := Object.From;
      if Object.Drawn /= null then
         Object.From := Object.Drawn.all;
      end if;
      Object.Drawn := Mine;
   exception
      when others => Object.Drawn := null;
   end Adjust;
   overriding procedure Finalize (Object : in out Line) is
   begin
      Free (Object.Drawn);
   end Finalize;
   One : Pair;
   Two : Pair;
begin
   One.First.From.X := 1;
   One.First.Drawn := new Spot'(X => 2, Y => 3);
   One.Second.From.X := 4;
   One.Second.Drawn := new Spot'(X => 5, Y => 6);
   Two := One;
   Ada.Text_IO.Put_Line (Integer'Image (Two.First.From.X));
   Ada.Text_IO.Put_Line (Integer'Image (Two.First.Drawn.X));
   Ada.Text_IO.Put_Line (Integer'Image (Two.Second.From.X));
   Ada.Text_IO.Put_Line (Integer'Image (Two.Second.Drawn.X));
end Main;
