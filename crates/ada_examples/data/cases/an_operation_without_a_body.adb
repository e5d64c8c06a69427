with Ada.Finalization;
procedure Main is
type Box is new Ada.Finalization.Controlled with null record;
procedure Finalize (Object : in out Box);
B : Box;
begin null; end Main;
