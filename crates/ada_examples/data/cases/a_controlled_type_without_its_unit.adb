procedure Main is
type Box is new Ada.Finalization.Controlled with null record;
begin
null;
end Main;
