with Ada.Finalization; with Ada.Text_IO;
procedure Main is
type Guard is new Ada.Finalization.Controlled with record Number : Integer := 0; end record;
overriding procedure Finalize (Object : in out Guard);
overriding procedure Finalize (Object : in out Guard) is
begin
Object.Number := 2147483647 + Object.Number;
Ada.Text_IO.Put_Line ("in range");
exception
when Constraint_Error => Ada.Text_IO.Put_Line ("out of range");
when others => null;
end Finalize;
procedure Work (Number : Integer) is
G : Guard;
begin
G.Number := Number;
if Number > 1 then raise Program_Error; end if;
if Number > 0 then return; end if;
end Work;
begin
Work (0);
Work (1);
Work (2);
exception
when Program_Error => Ada.Text_IO.Put_Line ("handled");
end Main;
