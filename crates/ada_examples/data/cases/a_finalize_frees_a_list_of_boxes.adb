with Ada.Finalization; with Ada.Text_IO; with Ada.Unchecked_Deallocation;
procedure Main is
   type Cell is record Value : Integer := 0; end record;
   type Ref is access Cell;
   procedure Free is new Ada.Unchecked_Deallocation (Cell, Ref);
   type Box is new Ada.Finalization.Limited_Controlled with record Item : Ref; end record;
   overriding procedure Finalize (Object : in out Box);
   type Box_Link is access Box;
   procedure Free_Box is new Ada.Unchecked_Deallocation (Box, Box_Link);
   type Node;
   type Link is access Node;
   type Node is record Held : Box_Link; Next : Link; end record;
   procedure Free_Node is new Ada.Unchecked_Deallocation (Node, Link);
   type List is new Ada.Finalization.Limited_Controlled with record Head : Link; end record;
   overriding procedure Finalize (Object : in out List);
   overriding procedure Finalize (Object : in out Box) is
   begin
      if Object.Item /= null then
         Ada.Text_IO.Put_Line (Integer'Image (Object.Item.Value));
      end if;
      Free (Object.Item);
   exception
      when others => null;
   end Finalize;
   overriding procedure Finalize (Object : in out List) is
      Mine : Box_Link;
      Rest : Link;
   begin
      while Object.Head /= null loop
         Mine := Object.Head.Held;
         Object.Head.Held := null;
         Free_Box (Mine);
         Rest := Object.Head.Next;
         Object.Head.Next := null;
         Free_Node (Object.Head);
         Object.Head := Rest;
         Rest := null;
      end loop;
      Ada.Text_IO.Put_Line ("empty");
   exception
      when others => null;
   end Finalize;
   B : Box_Link;
   L : List;
begin
   for I in 1 .. 3 loop
      B := new Box;
      B.Item := new Cell'(Value => I * I);
      L.Head := new Node'(Held => B, Next => L.Head);
      B := null;
   end loop;
   L.Head := new Node'(Held => null, Next => L.Head);
   Ada.Text_IO.Put_Line ("full");
end Main;
