with Ada.Text_IO; with Ada.Unchecked_Deallocation; with Run_Input;
procedure Main is
type Point is record X : Integer := 3; Y : Integer := -4; On : Boolean := True; end record;

R : Point;
begin
Ada.Text_IO.Put_Line (Integer'Image (R.X * 10 + R.Y));
R.X := R.Y + 1; R.Y := R.X * R.X; R.On := R.X > R.Y;
Ada.Text_IO.Put_Line (Integer'Image (R.X));
Ada.Text_IO.Put_Line (Integer'Image (R.Y));
if R.On then Ada.Text_IO.Put_Line ("on"); else Ada.Text_IO.Put_Line ("off"); end if;
end Main;
