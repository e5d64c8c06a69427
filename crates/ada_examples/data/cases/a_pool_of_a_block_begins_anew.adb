with Ada.Text_IO; with Profile_Pools;
procedure Main is
begin
for I in 1 .. 3 loop
declare
Room : Profile_Pools.First_Fit_Pool (6);
type Node; type Link is access Node with Storage_Pool => Room;
type Node is record Value : Integer := 0; Next : Link; end record;
A : Link := new Node'(I, null);
begin
Ada.Text_IO.Put_Line (Integer'Image (A.Value));
end;
end loop;
end Main;
