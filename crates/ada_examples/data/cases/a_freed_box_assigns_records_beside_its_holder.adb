with Ada.Finalization; with Ada.Text_IO; with Ada.Unchecked_Deallocation;
procedure Main is
   type Pair is record First : Integer := 0; Second : Integer := 0; end record;
   type Pair_Link is access Pair;
   procedure Free is new Ada.Unchecked_Deallocation (Pair, Pair_Link);
   type Box is new Ada.Finalization.Limited_Controlled with record Item : Pair_Link; Last : Pair; end record;
   overriding procedure Finalize (Object : in out Box);
   type Box_Link is access Box;
   procedure Free_Box is new Ada.Unchecked_Deallocation (Box, Box_Link);
   type Shelf is record Held : Box_Link; Count : Integer := 1; end record;
   type Shelf_Link is access Shelf;
   procedure Free_Shelf is new Ada.Unchecked_Deallocation (Shelf, Shelf_Link);
   procedure Show (P : Pair) is
   begin
      Ada.Text_IO.Put_Line (Integer'Image (P.First * 10 + P.Second));
   end Show;
   procedure Keep (Object : in out Box) is
   begin
      if Object.Item /= null then
         Object.Last := Object.Item.all;
         Object.Item.all := Pair'(First => 9, Second => Object.Last.First);
         Show (Object.Item.all);
      end if;
   end Keep;
   overriding procedure Finalize (Object : in out Box) is
   begin
      Keep (Object);
      Show (Object.Last);
      Free (Object.Item);
   exception
      when others => null;
   end Finalize;
   S : Shelf_Link := new Shelf;
begin
   S.Held := new Box;
   S.Held.Item := new Pair'(First => 4, Second => 2);
   Free_Box (S.Held);
   S.Held := new Box;
   Ada.Text_IO.Put_Line (Integer'Image (S.Count));
   Free_Shelf (S);
   Ada.Text_IO.Put_Line ("left");
end Main;
