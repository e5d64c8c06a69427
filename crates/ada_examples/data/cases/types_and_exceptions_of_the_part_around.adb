with Ada.Text_IO;
procedure Main is
type Point is record X : Integer := 3; end record; Limit : constant := 5; Bad : exception;
procedure Check (N : Integer) is P : Point; begin P.X := P.X + N; if P.X > Limit then raise Bad; end if; Ada.Text_IO.Put_Line (Integer'Image (P.X)); end Check;
begin Check (2); Check (3); exception when Bad => Ada.Text_IO.Put_Line ("bad"); end Main;
