with Ada.Finalization; with Ada.Text_IO; with Ada.Unchecked_Deallocation;
procedure Main is
   type Shelf;
   type Shelf_Link is access Shelf;
   type Box;
   type Box_Link is access Box;
   type Shelf is record Held : Box_Link; Number : Integer := 0; end record;
   procedure Free_Shelf is new Ada.Unchecked_Deallocation (Shelf, Shelf_Link);
   type Box is new Ada.Finalization.Limited_Controlled with record Other : Shelf_Link; end record;
   overriding procedure Finalize (Object : in out Box);
   procedure Free_Box is new Ada.Unchecked_Deallocation (Box, Box_Link);
   overriding procedure Finalize (Object : in out Box) is
   begin
      if Object.Other /= null then
         Object.Other.Number := 1;
      end if;
   exception
      when others => null;
   end Finalize;
   procedure Show is
      R : Shelf;
   begin
      R.Held := new Box;
      R.Held.Other := new Shelf;
      Free_Box (R.Held);
   end Show;
   S : Shelf;
begin
   Show;
   S.Held := new Box;
   S.Held.Other := new Shelf;
   Free_Box (S.Held);
   Ada.Text_IO.Put_Line ("left");
end Main;
