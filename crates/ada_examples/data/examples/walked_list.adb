with Ada.Text_IO; with Ada.Unchecked_Deallocation;
procedure Main is
   type Node;
   type Link is access Node;
   type Node is record
      Value : Integer := 0;
      Next  : Link;
   end record;
   procedure Free is new Ada.Unchecked_Deallocation (Node, Link);
   List    : Link;
   Second  : Link;
   At_Hand : access Node := List;
   Sum     : Integer := 0;
begin
   for I in 1 .. 4 loop
      List := new Node'(I * I, List);
   end loop;
   At_Hand := List;
   while At_Hand /= null loop
      Sum := Sum + At_Hand.Value;
      At_Hand.Value := Sum;
      At_Hand := At_Hand.Next;
   end loop;
   --  The second node is taken out and freed: from here on At_Hand is lost, until it is given a path again.
   Second := List.Next;
   List.Next := null;
   List.Next := Second.Next;
   Second.Next := null;
   Free (Second);
   At_Hand := List;
   while At_Hand /= null loop
      Ada.Text_IO.Put_Line (Integer'Image (At_Hand.Value));
      At_Hand := At_Hand.Next;
   end loop;
end Main;
