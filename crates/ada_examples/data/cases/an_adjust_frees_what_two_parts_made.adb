with Ada.Finalization; with Ada.Text_IO; with Ada.Unchecked_Deallocation;
procedure Main is
   type Grain is record Weight : Integer := 4; end record;
   type Seed is access Grain;
   type Pod is new Ada.Finalization.Controlled with record Kernel : Seed; end record;
   overriding procedure Adjust (Object : in out Pod);
   type Husk is record Left : Pod; Middle : Pod; Right : Pod; end record;
   procedure Free is new Ada.Unchecked_Deallocation (Grain, Seed);
   overriding procedure Adjust (Object : in out Pod) is
      Spare : Seed;
   begin
      Object.Kernel := new Grain'(Weight => Object.Kernel.Weight);
      Spare := new Grain;
      Spare.Weight := Object.Kernel.Weight + 1;
      Free (Spare);
      if Object.Kernel.Weight = 5 then
         Free (Object.Kernel);
      end if;
   exception
      when others => Object.Kernel := null;
   end Adjust;
   Old : Husk;
   Recent : Husk;
begin
   Old.Left.Kernel := new Grain;
   Old.Middle.Kernel := new Grain;
   Old.Middle.Kernel.Weight := 5;
   Old.Right.Kernel := new Grain;
   Recent := Old;
   Recent := Old;
   Ada.Text_IO.Put_Line (Integer'Image (Old.Middle.Kernel.Weight));
   if Recent.Middle.Kernel = null then
      Ada.Text_IO.Put_Line ("null");
   end if;
   Ada.Text_IO.Put_Line (Integer'Image (Recent.Right.Kernel.Weight));
end Main;
