with Ada.Text_IO; with Ada.Unchecked_Deallocation; with Run_Input;
procedure Main is
type Point is record X : Integer := 3; Y : Integer := -4; On : Boolean := True; end record;
type Pair is record Left : Point; Value : Integer := 6; Right : Point; end record;

R : Pair;
begin
Run_Input.Get (R.Right.Y); Run_Input.Get (R.Left.X); Run_Input.Get (R.Value);
Ada.Text_IO.Put_Line (Integer'Image (R.Right.Y));
Ada.Text_IO.Put_Line (Integer'Image (R.Left.X));
Ada.Text_IO.Put_Line (Integer'Image (R.Value));
Run_Input.Get (R.Left.Y);
end Main;
