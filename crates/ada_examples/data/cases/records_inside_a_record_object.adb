with Ada.Text_IO; with Ada.Unchecked_Deallocation; with Run_Input;
procedure Main is
type Point is record X : Integer := 3; Y : Integer := -4; On : Boolean := True; end record;
type Pair is record Left : Point; Value : Integer := 6; Right : Point; end record;

R : Pair; S : Pair;
begin
R.Left.Y := 8; R.Right.X := R.Left.X + R.Left.Y; S.Left.X := R.Right.X;
Ada.Text_IO.Put_Line (Integer'Image (R.Left.X * 10000 + R.Left.Y * 1000 + R.Right.X * 10 + R.Right.Y));
Ada.Text_IO.Put_Line (Integer'Image (S.Left.X));
Ada.Text_IO.Put_Line (Integer'Image (S.Right.X));
if S.Left.On and R.Right.On then Ada.Text_IO.Put_Line ("both"); end if;
end Main;
