with Ada.Finalization; with Ada.Text_IO; with Ada.Unchecked_Deallocation;
procedure Main is
   type Cell is record Value : Integer := 0; end record;
   type Ref is access Cell;
   procedure Free is new Ada.Unchecked_Deallocation (Cell, Ref);
   type Box is new Ada.Finalization.Limited_Controlled with record Item : Ref; end record;
   overriding procedure Finalize (Object : in out Box);
   type Box_Link is access Box;
   procedure Free_Box is new Ada.Unchecked_Deallocation (Box, Box_Link);
   type Shelf is record Held : Box_Link; Number : Integer := 3; end record;
   overriding procedure Finalize (Object : in out Box) is
   begin
      if Object.Item /= null then
         Ada.Text_IO.Put_Line (Integer'Image (Object.Item.Value));
      end if;
      Free (Object.Item);
   exception
      when others => null;
   end Finalize;
   procedure Empty (S : in out Shelf) is
   begin
      Free_Box (S.Held);
      if S.Held = null then
         Ada.Text_IO.Put_Line (Integer'Image (S.Number));
      end if;
   end Empty;
   S : Shelf;
begin
   S.Held := new Box;
   S.Held.Item := new Cell'(Value => 5);
   Empty (S);
   Ada.Text_IO.Put_Line ("left");
end Main;
