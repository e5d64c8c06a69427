with Ada.Finalization;
procedure Main is
type Box is new Ada.Finalization.Controlled with record Value : Integer := 0; end record;
procedure Finalize (Object : in out Box);
procedure Finalize (Object : in out Box) is
Other : Box;
begin
Object.Value := 1;
Object := Other;
end Finalize;
B : Box;
begin
null;
end Main;
