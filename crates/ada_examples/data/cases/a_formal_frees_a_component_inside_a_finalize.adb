with Ada.Finalization; with Ada.Text_IO; with Ada.Unchecked_Deallocation;
procedure Main is
   type Cell is record Value : Integer := 0; end record;
   type Ref is access Cell;
   procedure Free is new Ada.Unchecked_Deallocation (Cell, Ref);
   type Box is new Ada.Finalization.Limited_Controlled with record Item : Ref; end record;
   overriding procedure Finalize (Object : in out Box);
   type Box_Link is access Box;
   procedure Free_Box is new Ada.Unchecked_Deallocation (Box, Box_Link);
   type Pair is record Left : Box_Link; Right : Box_Link; end record;
   type Chest is new Ada.Finalization.Limited_Controlled with record Held : Pair; end record;
   overriding procedure Finalize (Object : in out Chest);
   type Chest_Link is access Chest;
   procedure Free_Chest is new Ada.Unchecked_Deallocation (Chest, Chest_Link);
   type Shelf is record Held : Chest_Link; end record;
   type Shelf_Link is access Shelf;
   overriding procedure Finalize (Object : in out Box) is
   begin
      if Object.Item /= null then
         Ada.Text_IO.Put_Line (Integer'Image (Object.Item.Value));
      end if;
      Free (Object.Item);
   exception
      when others => null;
   end Finalize;
   procedure Drop (P : in out Pair) is
   begin
      Free_Box (P.Left);
      Free_Box (P.Right);
   end Drop;
   overriding procedure Finalize (Object : in out Chest) is
   begin
      Drop (Object.Held);
      Ada.Text_IO.Put_Line ("a chest");
   end Finalize;
   procedure Empty (S : in out Shelf) is
   begin
      Free_Chest (S.Held);
   end Empty;
   procedure Fill (P : in out Pair; N : Integer) is
   begin
      P.Left := new Box;
      P.Left.Item := new Cell'(Value => N);
      P.Right := new Box;
      P.Right.Item := new Cell'(Value => N + 1);
   end Fill;
   A : Shelf_Link := new Shelf;
   B : Shelf;
begin
   A.Held := new Chest;
   Fill (A.Held.Held, 1);
   B.Held := new Chest;
   Fill (B.Held.Held, 3);
   Empty (B);
   Empty (A.all);
   Empty (A.all);
end Main;
