with Ada.Finalization;
procedure Main is
type Box is new Ada.Finalization.Limited_Controlled with record Value : Integer := 0; end record;
procedure Finalize (Object : in out Box);
procedure Finalize (Object : in out Box) is
Other : Box;
begin
Object := Other;
end Finalize;
begin
null;
end Main;
