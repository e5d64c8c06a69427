with Ada.Finalization; with Ada.Text_IO;
procedure Main is
   type Pearl is record Weight : Integer := 1; end record;
   type Pin is access Pearl;
   type Clip is new Ada.Finalization.Controlled with record Set : Pin; end record;
   type Lock is new Ada.Finalization.Limited_Controlled with null record;
   overriding procedure Adjust (Object : in out Clip);
   type Ears is record Left : Clip; Shut : Lock; Right : Clip; end record;
   overriding procedure Adjust (Object : in out Clip) is
   begin
      Object.Set := new Pearl'(Weight => Object.Set.Weight + 1);
   exception
      when others => Object.Set := null;
   end Adjust;
   Both : Ears;
begin
   Both.Left.Set := new Pearl;
   Both.Right := Both.Left;
   Both.Left := Both.Right;
   Ada.Text_IO.Put_Line (Integer'Image (Both.Left.Set.Weight));
end Main;
