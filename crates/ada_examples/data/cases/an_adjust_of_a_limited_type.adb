with Ada.Finalization;
procedure Main is
type Box is new Ada.Finalization.Limited_Controlled with null record;
procedure Adjust (Object : in out Box);
procedure Adjust (Object : in out Box) is begin null; end Adjust;
begin null; end Main;
