with Ada.Finalization; with Ada.Text_IO; with Run_Input;
procedure Main is
type Pair is record First : Integer := 0; Second : Integer := 0; end record;
type Box is new Ada.Finalization.Controlled with record Value : Integer := 1; Both : Pair; end record;
procedure Initialize (Object : in out Box);
procedure Finalize (Object : in out Box);
procedure Initialize (Object : in out Box) is
begin
Object.Value := 5;
Run_Input.Get (Object.Both.Second);
end Initialize;
procedure Finalize (Object : in out Box) is
begin
Object.Both.First := Object.Both.Second;
Ada.Text_IO.Put_Line (Integer'Image (Object.Both.First));
end Finalize;
begin
declare
B : Box;
begin
Ada.Text_IO.Put_Line (Integer'Image (B.Value));
end;
end Main;
