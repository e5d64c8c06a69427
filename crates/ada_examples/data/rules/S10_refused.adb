with Ada.Finalization;
procedure Main is
type Cell is record Value : Integer := 0; end record; type Ref is access Cell;
type Box is new Ada.Finalization.Controlled with record Item : Ref; end record;
overriding procedure Finalize (Object : in out Box);
procedure Finalize (Object : in out Box) is
begin
Object.Item := new Cell'(Value => 1);
exception when others => null;
end Finalize;
begin null; end Main;
