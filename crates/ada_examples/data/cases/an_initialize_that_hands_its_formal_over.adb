with Ada.Finalization;
procedure Main is
type Box is new Ada.Finalization.Controlled with record Value : Integer := 0; end record;
overriding procedure Initialize (Object : in out Box);
procedure Look (B : Box) is begin null; end Look;
procedure Set (N : in out Integer; B : in out Box) is begin B.Value := N; end Set;
overriding procedure Initialize (Object : in out Box) is
begin
Look (Object);
Set (Object.Value, Object);
end Initialize;
B : Box;
begin
null;
end Main;
