with Ada.Finalization; with Ada.Text_IO; with Ada.Unchecked_Deallocation;
procedure Main is
   type Cell is record Value : Integer := 0; end record;
   type Ref is access Cell;
   procedure Free is new Ada.Unchecked_Deallocation (Cell, Ref);
   type Node;
   type Link is access Node;
   type Node is new Ada.Finalization.Limited_Controlled with record Item : Ref; Next : Link; Last : Link; end record;
   overriding procedure Finalize (Object : in out Node);
   procedure Free_Node is new Ada.Unchecked_Deallocation (Node, Link);
   overriding procedure Finalize (Object : in out Node) is
   begin
      if Object.Next = null then
         Ada.Text_IO.Put_Line ("the second one");
      end if;
      if Object.Last = null then
         Ada.Text_IO.Put_Line ("the first one");
      end if;
      Free (Object.Item);
   end Finalize;
   First : Link := new Node;
   Second : Link := new Node;
begin
   First.Item := new Cell'(Value => 1);
   Second.Item := new Cell'(Value => 2);
   Second.Last := First;
   Second.Last.Next := Second;
   Ada.Text_IO.Put_Line ("left");
end Main;
