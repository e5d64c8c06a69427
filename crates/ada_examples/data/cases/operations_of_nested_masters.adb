with Ada.Finalization; with Ada.Text_IO;
procedure Main is
type Guard is new Ada.Finalization.Limited_Controlled with record Number : Integer := 0; end record;
overriding procedure Initialize (Object : in out Guard);
overriding procedure Finalize (Object : in out Guard);
procedure Initialize (Object : in out Guard) is
begin
Object.Number := 7; Ada.Text_IO.Put_Line ("begins");
end Initialize;
procedure Finalize (Object : in out Guard) is
begin
Ada.Text_IO.Put_Line (Integer'Image (Object.Number)); Ada.Text_IO.Put_Line ("ends");
end Finalize;
A : Guard;
begin
declare
B : Guard;
begin
B.Number := 8;
Ada.Text_IO.Put_Line ("inside");
end;
Ada.Text_IO.Put_Line ("outside");
end Main;
