with Ada.Text_IO; with Ada.Unchecked_Deallocation; with Profile_Pools;
procedure Main is
Left : Profile_Pools.First_Fit_Pool (5);
Right : Profile_Pools.First_Fit_Pool (5);
type Cell is record Value : Integer := 0; end record;
type Left_Ref is access Cell with Storage_Pool => Left;
type Right_Ref is access Cell with Storage_Pool => Right;
procedure Free_Left is new Ada.Unchecked_Deallocation (Cell, Left_Ref);
procedure Free_Right is new Ada.Unchecked_Deallocation (Cell, Right_Ref);
A : Left_Ref := new Cell; B : Right_Ref := new Cell;
begin
Free_Left (A);
A := new Cell'(Value => 7);
Ada.Text_IO.Put_Line (Integer'Image (A.Value));
B := new Cell'(Value => 8);
exception
when Storage_Error => Ada.Text_IO.Put_Line ("the other pool is full");
end Main;
