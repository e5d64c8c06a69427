with Ada.Finalization; with Ada.Text_IO; with Ada.Unchecked_Deallocation;
procedure Main is
   type Cell is record Value : Integer := 0; end record;
   type Ref is access Cell;
   procedure Free is new Ada.Unchecked_Deallocation (Cell, Ref);
   type Box is new Ada.Finalization.Limited_Controlled with record Item : Ref; end record;
   overriding procedure Finalize (Object : in out Box);
   type Box_Link is access Box;
   procedure Free_Box is new Ada.Unchecked_Deallocation (Box, Box_Link);
   type Shelf is record Held : Box_Link; end record;
   type Shelf_Link is access Shelf;
   procedure Free_Shelf is new Ada.Unchecked_Deallocation (Shelf, Shelf_Link);
   overriding procedure Finalize (Object : in out Box) is
   begin
      if Object.Item /= null then
         Ada.Text_IO.Put_Line (Integer'Image (Object.Item.Value));
      end if;
      Free (Object.Item);
   exception
      when others => null;
   end Finalize;
   procedure Fill (S : in out Shelf; N : Integer) is
   begin
      S.Held := new Box;
      S.Held.Item := new Cell'(Value => N);
   end Fill;
   procedure Empty (S : in out Shelf) is
   begin
      Free_Box (S.Held);
      Ada.Text_IO.Put_Line ("empty");
   end Empty;
   Mine : Shelf;
   S : Shelf_Link := new Shelf;
begin
   for I in 1 .. 2 loop
      Fill (Mine, I);
      Fill (S.all, I + 10);
      Empty (Mine);
      Empty (S.all);
   end loop;
   Empty (Mine);
   Fill (Mine, 3);
   Free_Shelf (S);
   Ada.Text_IO.Put_Line ("left");
end Main;
