with Ada.Text_IO;
procedure Main is
type Part is record Value : Integer := 1; A : Boolean := True; end record;
type Node; type Link is access Node;
type Node is record A : Part; Value : Integer := 2; B : Part; Part : Integer := 3; Next : Link; end record;
A : Link := new Node; Value : Integer := 4; Next : Boolean := True;
begin
Value := A.A.Value * 1000 + A.Value * 100 + A.Part * 10 + Value; A.Next := new Node; A.Next.B.Value := Value;
if A.A.A and A.Next.B.A and Next then Ada.Text_IO.Put_Line (Integer'Image (A.Next.B.Value)); end if;
end Main;
