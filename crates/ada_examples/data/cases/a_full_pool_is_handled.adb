with Ada.Text_IO; with Profile_Pools;
procedure Main is
Room : Profile_Pools.First_Fit_Pool (Pool_Size => 6);
type Node; type Link is access Node with Storage_Pool => Room;
type Node is record Value : Integer := 0; Next : Link; end record;
Head : Link;
begin
Head := new Node'(1, null);
Head := new Node'(2, Head);
exception
when Storage_Error => Ada.Text_IO.Put_Line (Integer'Image (Head.Value));
end Main;
