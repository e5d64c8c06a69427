with Ada.Text_IO; with Ada.Unchecked_Deallocation; with Run_Input;
procedure Main is
type Mark is null record;

R : Mark; S : Mark; N : Integer := 2;
begin
declare
R : Mark;
begin
N := N + 1;
end;
Ada.Text_IO.Put_Line (Integer'Image (N));
end Main;
