with Ada.Finalization; with Ada.Text_IO;
procedure Main is
type Box is new Ada.Finalization.Controlled with record Value : Integer := 3; end record;
procedure Finalize (Object : in out Box);
procedure Finalize (Object : in out Box) is
procedure Copy (Object : in out Box) is
Other : Box;
begin
Object := Other;
end Copy;
begin
declare
Object : Integer := 4;
begin
Object := 5;
Ada.Text_IO.Put_Line (Integer'Image (Object));
end;
Ada.Text_IO.Put_Line (Integer'Image (Object.Value));
end Finalize;
B : Box;
begin
null;
end Main;
