with Ada.Finalization; with Ada.Text_IO; with Ada.Unchecked_Deallocation;
procedure Main is
   type Cell is record Value : Integer := 0; end record;
   type Ref is access Cell;
   procedure Free is new Ada.Unchecked_Deallocation (Cell, Ref);
   type Box is new Ada.Finalization.Limited_Controlled with record Item : Ref; end record;
   overriding procedure Initialize (Object : in out Box);
   overriding procedure Finalize (Object : in out Box);
   type Box_Link is access Box;
   procedure Free_Box is new Ada.Unchecked_Deallocation (Box, Box_Link);
   type Shelf;
   type Shelf_Link is access Shelf;
   type Shelf is record Held : Box_Link; Next : Shelf_Link; end record;
   procedure Free_Shelf is new Ada.Unchecked_Deallocation (Shelf, Shelf_Link);
   overriding procedure Initialize (Object : in out Box) is
   begin
      Object.Item := new Cell'(Value => 5);
   end Initialize;
   overriding procedure Finalize (Object : in out Box) is
   begin
      Free (Object.Item);
      Ada.Text_IO.Put_Line ("emptied");
   end Finalize;
   S : Shelf_Link := new Shelf;
   T : Shelf_Link;
begin
   S.Next := new Shelf;
   S.Next.Held := new Box;
   Ada.Text_IO.Put_Line (Integer'Image (S.Next.Held.Item.Value));
   T := S.Next;
   S.Next := null;
   Free_Shelf (T);
   S.Held := new Box;
   Ada.Text_IO.Put_Line ("left");
end Main;
