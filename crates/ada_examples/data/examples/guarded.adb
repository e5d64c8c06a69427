with Ada.Finalization; with Ada.Text_IO;
procedure Main is
type Guard is new Ada.Finalization.Limited_Controlled with record Locked : Boolean := False; end record;
overriding procedure Initialize (Object : in out Guard);
overriding procedure Finalize (Object : in out Guard);

procedure Initialize (Object : in out Guard) is
begin
Object.Locked := True;
Ada.Text_IO.Put_Line ("locked");
end Initialize;

procedure Finalize (Object : in out Guard) is
begin
if Object.Locked then Ada.Text_IO.Put_Line ("unlocked"); end if;
end Finalize;

procedure Work (Number : Integer) is
G : Guard;
begin
Ada.Text_IO.Put_Line (Integer'Image (100 / Number));
end Work;
begin
Work (5);
Work (0);
exception
when Constraint_Error => Ada.Text_IO.Put_Line ("no number");
end Main;
