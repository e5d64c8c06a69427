with Ada.Finalization;
procedure Main is
type Lock is new Ada.Finalization.Limited_Controlled with record Holder : Integer := 0; end record;
One : Lock; Other : Lock;
begin
Other := One;
end Main;
