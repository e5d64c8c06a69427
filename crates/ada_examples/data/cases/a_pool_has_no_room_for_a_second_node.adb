with Ada.Text_IO; with Profile_Pools;
procedure Main is
Room : Profile_Pools.First_Fit_Pool (11);
type Node; type Link is access Node with Storage_Pool => Room;
type Node is record Value : Integer := 0; Next : Link; end record;
Head : Link;
begin
for I in 1 .. 2 loop
Head := new Node'(I, Head);
Ada.Text_IO.Put_Line (Integer'Image (Head.Value));
end loop;
end Main;
