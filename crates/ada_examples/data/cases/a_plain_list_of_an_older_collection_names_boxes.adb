with Ada.Finalization; with Ada.Text_IO; with Ada.Unchecked_Deallocation;
procedure Main is
   type Cell is record Value : Integer := 0; end record;
   type Ref is access Cell;
   procedure Free is new Ada.Unchecked_Deallocation (Cell, Ref);
   type Box;
   type Box_Link is access Box;
   type Node;
   type Link is access Node;
   type Node is record Held : Box_Link; Next : Link; end record;
   procedure Free_Node is new Ada.Unchecked_Deallocation (Node, Link);
   type Box is new Ada.Finalization.Limited_Controlled with record Item : Ref; Under : Box_Link; end record;
   overriding procedure Finalize (Object : in out Box);
   procedure Free_Box is new Ada.Unchecked_Deallocation (Box, Box_Link);
   overriding procedure Finalize (Object : in out Box) is
   begin
      if Object.Item /= null then
         Ada.Text_IO.Put_Line (Integer'Image (Object.Item.Value));
      end if;
      Free (Object.Item);
   exception
      when others => null;
   end Finalize;
   B : Box_Link;
   Top : Link;
begin
   for I in 1 .. 2 loop
      B := new Box;
      B.Item := new Cell'(Value => I);
      B.Under := new Box;
      B.Under.Item := new Cell'(Value => 10 * I);
      Top := new Node'(Held => B, Next => Top);
      B := null;
   end loop;
   Free_Box (Top.Held);
   Ada.Text_IO.Put_Line ("left");
end Main;
