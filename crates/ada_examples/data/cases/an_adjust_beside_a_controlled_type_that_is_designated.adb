with Ada.Finalization;
procedure Main is
   type Drop is record Salt : Boolean := True; end record;
   type Tap is access Drop;
   type Glass is new Ada.Finalization.Controlled with record Water : Tap; end record;
   type Lamp is new Ada.Finalization.Limited_Controlled with null record;
   overriding procedure Adjust (Object : in out Glass);
   type Room is record Light : Lamp; end record;
   type Door is access Room;
   overriding procedure Adjust (Object : in out Glass) is
   begin
      Object.Water := null;
   end Adjust;
   One : Glass;
   Two : Glass;
begin
   Two := One;
end Main;
