with Ada.Finalization;
procedure Main is
type Box is new Ada.Finalization.Controlled with null record;
procedure Finalize (Object : in out Box);
procedure Finalize (Item : in out Box) is begin null; end Finalize;
begin null; end Main;
