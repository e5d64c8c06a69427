with Ada.Finalization; with Ada.Text_IO; with Ada.Unchecked_Deallocation;
procedure Main is
   type Shelf;
   type Shelf_Link is access Shelf;
   type Box;
   type Box_Link is access Box;
   type Shelf is record Held : Box_Link; Number : Integer := 0; end record;
   procedure Free_Shelf is new Ada.Unchecked_Deallocation (Shelf, Shelf_Link);
   type Rack is record Lower : Shelf; Upper : Shelf; end record;
   type Box is new Ada.Finalization.Limited_Controlled with record Other : Shelf_Link; end record;
   overriding procedure Finalize (Object : in out Box);
   procedure Free_Box is new Ada.Unchecked_Deallocation (Box, Box_Link);
   overriding procedure Finalize (Object : in out Box) is
   begin
      if Object.Other /= null then
         Ada.Text_IO.Put_Line (Integer'Image (Object.Other.Number));
      end if;
   exception
      when others => null;
   end Finalize;
   procedure Show is
      R : Rack;
      B : Box_Link := new Box;
   begin
      R.Upper.Held := new Box;
      R.Upper.Held.Other := new Shelf;
      Free_Box (B);
      if R.Upper.Held /= null then
         Free_Box (R.Upper.Held);
      end if;
      Ada.Text_IO.Put_Line ("shown");
   end Show;
begin
   Show;
end Main;
