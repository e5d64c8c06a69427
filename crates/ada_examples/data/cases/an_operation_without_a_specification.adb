with Ada.Finalization;
procedure Main is
type Box is new Ada.Finalization.Controlled with null record;
overriding procedure Finalize (Object : in out Box) is begin null; end Finalize;
begin null; end Main;
