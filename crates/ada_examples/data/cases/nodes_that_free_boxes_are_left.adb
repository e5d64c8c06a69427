with Ada.Finalization; with Ada.Text_IO; with Ada.Unchecked_Deallocation;
procedure Main is
   type Cell is record Value : Integer := 0; end record;
   type Ref is access Cell;
   procedure Free is new Ada.Unchecked_Deallocation (Cell, Ref);
   type Box;
   type Box_Link is access Box;
   type Box is new Ada.Finalization.Limited_Controlled with record Item : Ref; Lid : Box_Link; end record;
   overriding procedure Finalize (Object : in out Box);
   procedure Free_Box is new Ada.Unchecked_Deallocation (Box, Box_Link);
   type Node;
   type Link is access Node;
   type Node is new Ada.Finalization.Limited_Controlled with record Held : Box_Link; Next : Link; end record;
   overriding procedure Finalize (Object : in out Node);
   procedure Free_Node is new Ada.Unchecked_Deallocation (Node, Link);
   overriding procedure Finalize (Object : in out Box) is
   begin
      if Object.Item /= null then
         Ada.Text_IO.Put_Line (Integer'Image (Object.Item.Value));
      end if;
      Free (Object.Item);
   exception
      when others => null;
   end Finalize;
   overriding procedure Finalize (Object : in out Node) is
   begin
      Ada.Text_IO.Put_Line ("node");
      Free_Box (Object.Held);
   end Finalize;
   Top : Link;
   N : Link;
begin
   for I in 1 .. 2 loop
      N := new Node;
      N.Held := new Box;
      N.Held.Item := new Cell'(Value => I);
      N.Held.Lid := new Box;
      N.Held.Lid.Item := new Cell'(Value => 10 * I);
      N.Next := Top;
      Top := N;
      N := null;
   end loop;
   Ada.Text_IO.Put_Line ("left");
end Main;
