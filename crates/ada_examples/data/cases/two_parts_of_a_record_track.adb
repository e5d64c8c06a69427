with Ada.Finalization;
procedure Main is
   type Pearl is record Round : Boolean := True; end record;
   type Pin is access Pearl;
   type Clip is new Ada.Finalization.Controlled with record Set : Pin; end record;
   overriding procedure Adjust (Object : in out Clip);
   type Ears is record Left : Clip; Right : Clip; end record;
   overriding procedure Adjust (Object : in out Clip) is
   begin
      Object.Set := null;
   end Adjust;
   One : Ears;
   Two : Ears;
begin
   Two.Left := One.Right;
end Main;
