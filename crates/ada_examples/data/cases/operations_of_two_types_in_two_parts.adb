with Ada.Finalization; with Ada.Text_IO;
procedure Main is
type Left is new Ada.Finalization.Controlled with null record;
type Right is new Ada.Finalization.Controlled with null record;
procedure Finalize (Object : in out Right);
procedure Finalize (Object : in out Left);
procedure Finalize (Object : in out Left) is begin Ada.Text_IO.Put_Line ("left"); end Finalize;
procedure Finalize (Object : in out Right) is begin Ada.Text_IO.Put_Line ("right"); end Finalize;
procedure Nested is
type Left is new Ada.Finalization.Controlled with null record;
procedure Finalize (Object : in out Left);
procedure Finalize (Object : in out Left) is begin Ada.Text_IO.Put_Line ("inner left"); end Finalize;
A : Left; B : Right;
begin null; end Nested;
L : Left; R : Right;
begin
Nested;
end Main;
