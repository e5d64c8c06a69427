with Ada.Finalization;
procedure Main is
type Lock is new Ada.Finalization.Limited_Controlled with null record;
type Inner is record Guard : Lock; end record;
type Outer is record Part : Inner; Value : Integer := 0; end record;
One : Outer; Other : Outer := One;
begin
null;
end Main;
