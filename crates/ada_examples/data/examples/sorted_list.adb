with Ada.Text_IO; with Ada.Unchecked_Deallocation; with Run_Input;
procedure Main is
   type Node;
   type Link is access Node;
   type Node is record
      Value : Integer := 0;
      Next  : Link;
   end record;
   procedure Free is new Ada.Unchecked_Deallocation (Node, Link);
   --  The node in front of the list has no number of its own.
   List : Link := new Node'(0, null);
   Spot : access Node := List;
   Rest : Link;
   N    : Integer := 0;
begin
   begin
      loop
         Run_Input.Get (N);
         Spot := List;
         while Spot.Next /= null and then Spot.Next.Value < N loop
            Spot := Spot.Next;
         end loop;
         --  The new node owns what was behind the spot, and the node at the spot owns the new one.
         Spot.Next := new Node'(N, Spot.Next);
      end loop;
   exception
      when Run_Input.End_Error => null;
   end;
   --  Behind a Free no borrower of a node is relied on, so this one is null from here on.
   Spot := null;
   while List.Next /= null loop
      Ada.Text_IO.Put_Line (Integer'Image (List.Next.Value));
      Rest := List.Next;
      List.Next := null;
      List.Next := Rest.Next;
      Rest.Next := null;
      Free (Rest);
   end loop;
end Main;
