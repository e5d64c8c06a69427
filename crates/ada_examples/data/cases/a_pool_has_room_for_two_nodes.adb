with Ada.Text_IO; with Profile_Pools;
procedure Main is
Room : Profile_Pools.First_Fit_Pool (12);
type Node; type Link is access Node with Storage_Pool => Room;
type Node is record Value : Integer := 0; Next : Link; end record;
A : Link := new Node'(1, null);
B : Link := new Node'(2, null);
begin
Ada.Text_IO.Put_Line (Integer'Image (A.Value + B.Value));
end Main;
