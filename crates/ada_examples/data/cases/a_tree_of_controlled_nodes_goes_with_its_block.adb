with Ada.Finalization; with Ada.Text_IO; with Ada.Unchecked_Deallocation;
procedure Main is
   type Cell is record Value : Integer := 0; end record;
   type Ref is access Cell;
   procedure Free is new Ada.Unchecked_Deallocation (Cell, Ref);
   Kept : Ref := new Cell'(Value => 7);
begin
   for Turn in 1 .. 2 loop
      declare
         type Node;
         type Link is access Node;
         type Node is new Ada.Finalization.Limited_Controlled with record Item : Ref; Left : Link; Right : Link; end record;
         overriding procedure Finalize (Object : in out Node);
         procedure Free_Node is new Ada.Unchecked_Deallocation (Node, Link);
         overriding procedure Finalize (Object : in out Node) is
         begin
            if Object.Item /= null then
               Ada.Text_IO.Put_Line (Integer'Image (Object.Item.Value));
            end if;
            Free (Object.Item);
         exception
            when others => null;
         end Finalize;
         Root : Link := new Node;
         Freed : Link;
      begin
         Root.Item := new Cell'(Value => 10 * Turn);
         Root.Left := new Node;
         Root.Left.Item := new Cell'(Value => 10 * Turn + 1);
         Root.Right := new Node;
         Root.Right.Item := new Cell'(Value => 10 * Turn + 2);
         Root.Left.Right := new Node;
         Freed := Root.Right;
         Root.Right := null;
         Free_Node (Freed);
         Ada.Text_IO.Put_Line ("leaves");
      end;
   end loop;
   Ada.Text_IO.Put_Line (Integer'Image (Kept.Value));
end Main;
