with Ada.Finalization;
procedure Main is
   type Drop is record Salt : Boolean := True; end record;
   type Tap is access Drop;
   type Glass is new Ada.Finalization.Controlled with record Water : Tap; end record;
   overriding procedure Adjust (Object : in out Glass);
   type Waiter is access Glass;
   overriding procedure Adjust (Object : in out Glass) is
   begin
      Object.Water := null;
   end Adjust;
   One : Glass;
   Two : Glass;
begin
   Two := One;
end Main;
