with Ada.Finalization; with Ada.Text_IO; with Ada.Unchecked_Deallocation;
procedure Main is
   type Cell is record Value : Integer := 0; end record;
   type Ref is access Cell;
   procedure Free is new Ada.Unchecked_Deallocation (Cell, Ref);
   type Box is new Ada.Finalization.Limited_Controlled with record Item : Ref; end record;
   overriding procedure Finalize (Object : in out Box);
   type Box_Link is access Box;
   type Node;
   type Link is access Node;
   type Node is record Value : Integer := 0; Next : Link; end record;
   overriding procedure Finalize (Object : in out Box) is
   begin
      Ada.Text_IO.Put_Line ("a box");
      Free (Object.Item);
   end Finalize;
   B : Box_Link := new Box;
   N : Link := new Node'(Value => 2, Next => null);
begin
   B.Item := new Cell'(Value => 3);
   N := new Node'(Value => 1, Next => N);
   Ada.Text_IO.Put_Line (Integer'Image (N.Next.Value + B.Item.Value));
end Main;
