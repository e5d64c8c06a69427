with Ada.Text_IO;
procedure Main is
Limit : constant := 7;
type Cell is record Value : Integer := Limit; Done : Boolean := True; end record;
Count : Integer := Limit + 1;
begin
Count := -Count;
Ada.Text_IO.Put_Line (Integer'Image (Count));
end Main;
