with Ada.Finalization; with Ada.Unchecked_Deallocation;
procedure Main is
   type Step;
   type Rail is access Step;
   type Step is record Width : Integer := 0; Up : Rail; end record;
   type Stair is new Ada.Finalization.Controlled with record Foot : Rail; end record;
   overriding procedure Adjust (Object : in out Stair);
   procedure Free is new Ada.Unchecked_Deallocation (Step, Rail);
   overriding procedure Adjust (Object : in out Stair) is
   begin
      Object.Foot := new Step;
      Object.Foot.Up := new Step;
      Free (Object.Foot.Up);
   exception
      when others => Object.Foot := null;
   end Adjust;
begin
   null;
end Main;
