with Ada.Text_IO; with Ada.Unchecked_Deallocation; with Run_Input;
procedure Main is
   type Node;
   type Link is access Node;
   type Node is record
      Value : Integer := 0;
      Next  : Link;
   end record;
   procedure Free is new Ada.Unchecked_Deallocation (Node, Link);
   List : Link;
   Rest : Link;
   Read : Integer := 0;
begin
   --  Each number goes in front of those before it.
   begin
      loop
         Run_Input.Get (Read);
         List := new Node'(Read, List);
      end loop;
   exception
      when Run_Input.End_Error => null;
   end;
   --  The list is written and freed, node by node.
   while List /= null loop
      Ada.Text_IO.Put_Line (Integer'Image (List.Value));
      Rest := List.Next;
      List.Next := null;
      Free (List);
      List := Rest;
      Rest := null;
   end loop;
end Main;
