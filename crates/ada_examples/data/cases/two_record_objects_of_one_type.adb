with Ada.Text_IO; with Ada.Unchecked_Deallocation; with Run_Input;
procedure Main is
type Point is record X : Integer := 3; Y : Integer := -4; On : Boolean := True; end record;

R : Point; S : Point;
begin
R.X := 1; S.X := 2; R.Y := S.X * 10; S.Y := R.X * 100; S.On := False;
Ada.Text_IO.Put_Line (Integer'Image (R.X + R.Y));
Ada.Text_IO.Put_Line (Integer'Image (S.X + S.Y));
if R.On and not S.On then Ada.Text_IO.Put_Line ("two"); end if;
end Main;
