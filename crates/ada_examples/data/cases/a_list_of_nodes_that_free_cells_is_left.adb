with Ada.Finalization; with Ada.Text_IO; with Ada.Unchecked_Deallocation;
procedure Main is
   type Cell is record Value : Integer := 0; end record;
   type Ref is access Cell;
   procedure Free is new Ada.Unchecked_Deallocation (Cell, Ref);
   type Node;
   type Link is access Node;
   type Node is new Ada.Finalization.Limited_Controlled with record Item : Ref; Next : Link; end record;
   overriding procedure Finalize (Object : in out Node);
   procedure Free_Node is new Ada.Unchecked_Deallocation (Node, Link);
   overriding procedure Finalize (Object : in out Node) is
   begin
      if Object.Item /= null then
         Ada.Text_IO.Put_Line (Integer'Image (Object.Item.Value));
      end if;
      Free (Object.Item);
   exception
      when others => null;
   end Finalize;
   Top : Link;
   N : Link;
begin
   for I in 1 .. 3 loop
      N := new Node;
      N.Item := new Cell'(Value => I);
      N.Next := Top;
      Top := N;
      N := null;
   end loop;
   Ada.Text_IO.Put_Line ("left");
end Main;
