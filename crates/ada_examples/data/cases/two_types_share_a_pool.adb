with Ada.Text_IO; with Profile_Pools;
procedure Main is
Room : Profile_Pools.First_Fit_Pool (11);
type Cell is record Value : Integer := 0; end record;
type Ref is access Cell with Storage_Pool => Room;
type Node; type Link is access Node with Storage_Pool => Room;
type Node is record Value : Integer := 0; Next : Link; end record;
A : Ref := new Cell; B : Link := new Node; C : Ref;
begin
C := new Cell;
exception
when Storage_Error => Ada.Text_IO.Put_Line ("both took words of it");
end Main;
