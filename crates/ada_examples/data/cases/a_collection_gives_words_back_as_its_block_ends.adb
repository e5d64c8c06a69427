with Ada.Text_IO; with Profile_Pools;
procedure Main is
Room : Profile_Pools.First_Fit_Pool (10);
type Cell is record Value : Integer := 0; end record;
begin
for I in 1 .. 2 loop
declare
type Ref is access Cell with Storage_Pool => Room;
A : Ref;
begin
A := new Cell'(Value => I);
A := new Cell'(Value => A.Value + 10);
Ada.Text_IO.Put_Line (Integer'Image (A.Value));
end;
end loop;
end Main;
