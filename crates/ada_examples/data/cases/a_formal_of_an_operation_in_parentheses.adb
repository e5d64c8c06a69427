with Ada.Finalization;
procedure Main is
type Box is new Ada.Finalization.Controlled with record Value : Integer := 0; end record;
procedure Finalize (Object : in out Box);
procedure Set (B : in out Box) is begin B.Value := 1; end Set;
procedure Finalize (Object : in out Box) is
begin
Set ((Object));
end Finalize;
begin
null;
end Main;
