with Ada.Finalization;
procedure Main is
type Box is new Ada.Finalization.Controlled with record Value : Integer := 0; end record;
type Lid is new Ada.Finalization.Limited_Controlled with null record;
type Chest is new Ada.Finalization.Controlled with record Top : Lid; end record;
procedure Finalize (Object : in out Chest);
procedure Finalize (Object : in out Chest) is
Other : Chest;
begin
Object := Other;
end Finalize;
begin
null;
end Main;
