with Ada.Text_IO;
procedure Main is
procedure Show (N : Integer; Twice : in Boolean) is
begin
Ada.Text_IO.Put_Line (Integer'Image (N));
if Twice then Ada.Text_IO.Put_Line (Integer'Image (N * 2)); end if;
end Show;
X : Integer := 20;
begin Show (X + 1, X > 3); Show (-X, not (X > 3)); end Main;
