with Ada.Text_IO; with Ada.Unchecked_Deallocation;
procedure Main is
   type Node;
   type Link is access Node;
   type Node is record
      Value : Integer := 0;
      Next  : Link;
   end record;
   Empty : exception;
   procedure Free is new Ada.Unchecked_Deallocation (Node, Link);

   --  A new node stands before the others.
   procedure Push (Top : in out Link; Value : Integer) is
   begin
      Top := new Node'(Value, Top);
   end Push;

   --  The first node is taken out and freed. Where there is none, the stack stays what it is.
   procedure Pop (Top : in out Link; Value : in out Integer) is
      Rest : Link;
   begin
      if Top = null then
         raise Empty;
      end if;
      Value := Top.Value;
      Rest := Top.Next;
      Top.Next := null;
      Free (Top);
      Top := Rest;
   end Pop;

   --  The nodes are walked, and stay where they are.
   procedure Show (Top : Link) is
      Here : access Node := Top;
   begin
      while Here /= null loop
         Ada.Text_IO.Put_Line (Integer'Image (Here.Value));
         Here := Here.Next;
      end loop;
   end Show;

   Stack : Link;
   Last  : Integer := 0;
begin
   for I in 1 .. 3 loop
      Push (Stack, I * I);
   end loop;
   Pop (Stack, Last);
   Show (Stack);
   loop
      Pop (Stack, Last);
   end loop;
exception
   when Empty =>
      Ada.Text_IO.Put_Line (Integer'Image (Last));
end Main;
