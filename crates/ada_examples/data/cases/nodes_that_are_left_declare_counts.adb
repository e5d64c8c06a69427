with Ada.Finalization; with Ada.Text_IO; with Ada.Unchecked_Deallocation;
procedure Main is
   type Cell is record Value : Integer := 6; end record;
   type Link is access Cell;
   type Count is new Ada.Finalization.Limited_Controlled with record Value : Integer := 0; end record;
   type Node;
   type Node_Link is access Node;
   type Node is new Ada.Finalization.Limited_Controlled with record Held : Link; Next : Node_Link; end record;
   overriding procedure Initialize (Object : in out Count);
   overriding procedure Finalize (Object : in out Count);
   overriding procedure Finalize (Object : in out Node);
   procedure Free is new Ada.Unchecked_Deallocation (Cell, Link);
   procedure Free_Node is new Ada.Unchecked_Deallocation (Node, Node_Link);
   overriding procedure Initialize (Object : in out Count) is
   begin
      Object.Value := 1;
   end Initialize;
   overriding procedure Finalize (Object : in out Count) is
   begin
      Ada.Text_IO.Put_Line (Integer'Image (Object.Value));
   end Finalize;
   overriding procedure Finalize (Object : in out Node) is
      C : Count;
   begin
      C.Value := C.Value + Object.Held.Value;
      Free (Object.Held);
   exception
      when Constraint_Error => null;
   end Finalize;
   Top : Node_Link;
begin
   Top := new Node;
   Top.Held := new Cell'(Value => 1);
   Top.Next := new Node;
   Top.Next.Held := new Cell'(Value => 2);
   Top.Next.Next := new Node;
   Top.Next.Next.Held := new Cell'(Value => 3);
end Main;
