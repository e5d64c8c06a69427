with Ada.Finalization;
procedure Main is
type Box is new Ada.Finalization.Controlled with record Copies : Integer := 0; end record;
overriding procedure Adjust (Object : in out Box);
procedure Adjust (Object : in out Box) is
begin
Object.Copies := Object.Copies + 1;
end Adjust;
begin null; end Main;
