--  A queue: what was added first is taken first. The queue is a record that is passed by reference.

with Ada.Text_IO;
with Ada.Unchecked_Deallocation;

procedure Main is
   type Node;
   type Link is access Node;
   type Node is record
      Value : Integer := 0;
      Next  : Link;
   end record;
   type Queue is record
      Front  : Link;
      Length : Integer := 0;
   end record;
   procedure Free is new Ada.Unchecked_Deallocation (Node, Link);

   procedure Add (Q : in out Queue; Value : Integer) is
      Last : access Node := Q.Front;
   begin
      Q.Length := Q.Length + 1;
      if Q.Front = null then
         Q.Front := new Node'(Value, null);
      else
         while Last.Next /= null loop
            Last := Last.Next;
         end loop;
         Last.Next := new Node'(Value, null);
      end if;
   end Add;

   procedure Take (Q : in out Queue; Value : in out Integer) is
      First : Link;
   begin
      Value := Q.Front.Value;
      First := Q.Front;
      Q.Front := null;
      Q.Front := First.Next;
      First.Next := null;
      Free (First);
      Q.Length := Q.Length - 1;
   end Take;

   procedure Print (Q : Queue) is
   begin
      Ada.Text_IO.Put_Line (Integer'Image (Q.Length));
   end Print;

   Q : Queue;
   N : Integer := 0;
begin
   Add (Q, 5);
   Add (Q, 6);
   Add (Q, 7);
   Print (Q);
   while Q.Length > 0 loop
      Take (Q, N);
      Ada.Text_IO.Put_Line (Integer'Image (N));
   end loop;
end Main;
