with Ada.Finalization;
procedure Main is
   type Pearl is record Round : Boolean := True; end record;
   type Pin is access Pearl;
   type Clip is new Ada.Finalization.Controlled with record Set : Pin; end record;
   type Box is new Ada.Finalization.Controlled with record Count : Integer := 0; Best : Clip; end record;
   overriding procedure Adjust (Object : in out Clip);
   overriding procedure Adjust (Object : in out Clip) is
   begin
      Object.Set := null;
   end Adjust;
   One : Box;
   Two : Box;
begin
   Two := One;
end Main;
