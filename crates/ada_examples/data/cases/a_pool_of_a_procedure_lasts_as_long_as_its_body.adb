with Ada.Text_IO; with Profile_Pools;
procedure Main is
procedure Fill (N : in Integer) is
Room : Profile_Pools.First_Fit_Pool (10);
type Cell is record Value : Integer := 0; end record;
type Ref is access Cell with Storage_Pool => Room;
A : Ref := new Cell'(Value => N); B : Ref := new Cell'(Value => N + 1);
begin
Ada.Text_IO.Put_Line (Integer'Image (A.Value * B.Value));
end Fill;
begin
Fill (2); Fill (3);
end Main;
