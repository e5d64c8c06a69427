with Ada.Finalization;
procedure Main is
type Pair is record First : Integer := 0; Second : Integer := 0; end record;
type Box is new Ada.Finalization.Controlled with record Value : Integer := 0; end record;
procedure Finalize (Object : in out Box);
procedure Set (P : in out Pair) is begin P.First := 1; end Set;
procedure Finalize (Object : in out Box) is
begin
Set (Object);
end Finalize;
begin
null;
end Main;
