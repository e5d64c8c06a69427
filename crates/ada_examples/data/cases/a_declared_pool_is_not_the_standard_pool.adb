with Ada.Text_IO; with Profile_Pools;
procedure Main is
Room : Profile_Pools.First_Fit_Pool (5);
type Cell is record Value : Integer := 0; end record;
type Near is access Cell with Storage_Pool => Room;
type Far is access Cell;
A : Near := new Cell; B : Far;
begin
for I in 1 .. 4 loop B := new Cell'(Value => I); end loop;
Ada.Text_IO.Put_Line (Integer'Image (B.Value));
A := new Cell;
end Main;
