with Ada.Text_IO; with Ada.Unchecked_Deallocation; with Profile_Pools;
procedure Main is
Room : Profile_Pools.First_Fit_Pool (6);
type Node; type Link is access Node;
for Link'Storage_Pool use Room;
type Node is record Value : Integer := 0; Next : Link; end record;
procedure Free is new Ada.Unchecked_Deallocation (Node, Link);
A : Link;
begin
for I in 1 .. 3 loop
A := new Node'(I, null);
Ada.Text_IO.Put_Line (Integer'Image (A.Value));
Free (A);
end loop;
end Main;
