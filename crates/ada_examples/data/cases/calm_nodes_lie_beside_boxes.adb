with Ada.Finalization; with Ada.Text_IO; with Ada.Unchecked_Deallocation;
procedure Main is
   type Cell is record Value : Integer := 0; end record;
   type Ref is access Cell;
   procedure Free is new Ada.Unchecked_Deallocation (Cell, Ref);
   type Box is new Ada.Finalization.Limited_Controlled with record Item : Ref; end record;
   overriding procedure Finalize (Object : in out Box);
   type Box_Link is access Box;
   procedure Free_Box is new Ada.Unchecked_Deallocation (Box, Box_Link);
   type Node;
   type Link is access Node;
   type Node is new Ada.Finalization.Limited_Controlled with record Value : Integer := 0; Next : Link; end record;
   overriding procedure Finalize (Object : in out Node);
   procedure Free_Node is new Ada.Unchecked_Deallocation (Node, Link);
   type Stack is record Top : Link; Count : Integer := 0; end record;
   overriding procedure Finalize (Object : in out Box) is
   begin
      Free (Object.Item);
      Ada.Text_IO.Put_Line ("emptied");
   end Finalize;
   overriding procedure Finalize (Object : in out Node) is
   begin
      Ada.Text_IO.Put_Line (Integer'Image (Object.Value));
   end Finalize;
   procedure Push (S : in out Stack) is
      N : Link := new Node;
   begin
      S.Count := S.Count + 1;
      N.Value := S.Count;
      N.Next := S.Top;
      S.Top := null;
      S.Top := N;
   end Push;
   procedure Pop (S : in out Stack) is
      Rest : Link;
   begin
      if S.Top /= null then
         Rest := S.Top.Next;
         S.Top.Next := null;
         Free_Node (S.Top);
         S.Top := Rest;
      end if;
   end Pop;
   S : Stack;
   B : Box_Link := new Box;
begin
   B.Item := new Cell'(Value => 5);
   Push (S);
   Push (S);
   Push (S);
   Pop (S);
   Free_Box (B);
   Ada.Text_IO.Put_Line ("left");
end Main;
