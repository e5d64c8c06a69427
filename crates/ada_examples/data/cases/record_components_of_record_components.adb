with Ada.Text_IO;
procedure Main is
Two : constant := 2;
type Inner is record X : Integer := 1; On : Boolean := True; Y : Integer := Two; end record;
type None is null record;
type Middle is record Z : Integer := 3; None_At_All : None; First : Inner; Second : Inner; end record;
type Outer is record Left : Middle; W : Integer := 4; Right : Middle; On : Boolean := False; end record;
type Link is access Outer;
A : Link := new Outer; B : Link := new Outer; N : Integer := 0;
begin
A.Left.First.X := 5; A.Left.Second.Y := 6; A.Right.Z := 7; A.Right.First.On := False; A.Right.Second.X := 8; A.On := True;
for I in 1 .. 2 loop
N := A.Left.Z; N := N * 10 + A.Left.First.X; N := N * 10 + A.Left.First.Y;
N := N * 10 + A.Left.Second.X; N := N * 10 + A.Left.Second.Y; N := N * 10 + A.W;
Ada.Text_IO.Put_Line (Integer'Image (N));
N := A.Right.Z; N := N * 10 + A.Right.First.X; N := N * 10 + A.Right.First.Y;
N := N * 10 + A.Right.Second.X; N := N * 10 + A.Right.Second.Y;
Ada.Text_IO.Put_Line (Integer'Image (N));
if A.On then Ada.Text_IO.Put_Line ("on"); end if;
if A.Left.First.On and A.Left.Second.On and A.Right.Second.On and not A.Right.First.On then Ada.Text_IO.Put_Line ("one is off"); end if;
A := B; B := null;
end loop;
end Main;
