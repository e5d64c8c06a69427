with Ada.Finalization;
procedure Main is
type Box is new Ada.Finalization.Controlled with record Value : Integer := 0; end record;
procedure Adjust (Object : in out Box);
procedure Adjust (Object : in out Box) is
begin
Object.Value := 1;
exception
when others =>
for I in 1 .. 2 loop
declare
Other : Box;
begin
Object := Other;
end;
end loop;
end Adjust;
begin
null;
end Main;
