with Ada.Text_IO; with Ada.Unchecked_Deallocation; with Run_Input;
procedure Main is
type Node; type Link is access Node;
type Node is record Value : Integer := 0; Next : Link; end record;
procedure Free is new Ada.Unchecked_Deallocation (Node, Link);
type List is record Head : Link; Count : Integer := 5; end record;
type Point is record X : Integer := 3; Y : Integer := -4; On : Boolean := True; end record;

R : Point; N : Integer := 0;
begin
R.X := 1;
declare
R : List;
begin
R.Count := 20; N := R.Count;
declare
Point : Integer := 300; R : Integer := Point;
begin
N := N + R;
end;
end;
Ada.Text_IO.Put_Line (Integer'Image (N + R.X));
end Main;
