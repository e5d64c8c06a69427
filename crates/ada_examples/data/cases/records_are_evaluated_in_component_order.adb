with Ada.Text_IO; with Ada.Unchecked_Deallocation;
procedure Main is
type Point is record Line : Integer := 1; Column : Integer := 2; end record;
type Shape is record Corner : Point; Filled : Boolean := False; Edge : Point; end record;
type Node; type Link is access Node;
type Node is record Place : Point; Next : Link; end record;
type Pointer is access Point;
procedure Free is new Ada.Unchecked_Deallocation (Node, Link);
procedure Free_Point is new Ada.Unchecked_Deallocation (Point, Pointer);
A : Pointer; R : Point; N : Integer := 0;
begin
R.Line := 3; R := Point'(Column => 1 / N, Line => A.Line);
exception when others => Ada.Text_IO.Put_Line (Integer'Image (R.Line));
end Main;
