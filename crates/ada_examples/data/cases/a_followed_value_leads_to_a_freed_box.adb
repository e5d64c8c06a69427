with Ada.Finalization; with Ada.Text_IO; with Ada.Unchecked_Deallocation;
procedure Main is
   type Cell is record Value : Integer := 0; end record;
   type Ref is access Cell;
   procedure Free is new Ada.Unchecked_Deallocation (Cell, Ref);
   type Box is new Ada.Finalization.Limited_Controlled with record Item : Ref; end record;
   overriding procedure Finalize (Object : in out Box);
   type Box_Link is access Box;
   procedure Free_Box is new Ada.Unchecked_Deallocation (Box, Box_Link);
   type Node;
   type Link is access Node;
   type Node is record Held : Box_Link; Next : Link; end record;
   procedure Free_Node is new Ada.Unchecked_Deallocation (Node, Link);
   overriding procedure Finalize (Object : in out Box) is
   begin
      if Object.Item /= null then
         Ada.Text_IO.Put_Line (Integer'Image (Object.Item.Value));
      end if;
      Free (Object.Item);
   exception
      when others => null;
   end Finalize;
   procedure Empty (Top : in out Link) is
   begin
      if Top /= null then
         Free_Box (Top.Held);
         if Top.Next /= null then
            Free_Box (Top.Next.Held);
         end if;
      end if;
   end Empty;
   B : Box_Link;
   Top : Link;
   Rest : Link;
   Seen : access Node := Top;
begin
   for I in 1 .. 3 loop
      B := new Box;
      B.Item := new Cell'(Value => I);
      Top := new Node'(Held => B, Next => Top);
      B := null;
   end loop;
   Seen := Top.Next.Next;
   Empty (Top);
   Ada.Text_IO.Put_Line (Integer'Image (Seen.Held.Item.Value));
   Free_Box (Seen.Held);
   if Top.Held = null then
      Ada.Text_IO.Put_Line ("null");
   end if;
   Top.Held := new Box;
   Free_Box (Top.Held);
   Rest := Top.Next;
   Top.Next := null;
   Free_Node (Rest);
   Ada.Text_IO.Put_Line ("left");
end Main;
