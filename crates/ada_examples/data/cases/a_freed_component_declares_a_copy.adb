with Ada.Finalization; with Ada.Text_IO; with Ada.Unchecked_Deallocation;
procedure Main is
   type Pair is record Low : Integer := 3; High : Integer := 8; end record;
   type Cell is record Ends : Pair; end record;
   type Link is access Cell;
   type Box is new Ada.Finalization.Limited_Controlled with record Held : Link; Size : Pair; end record;
   overriding procedure Finalize (Object : in out Box);
   type Box_Link is access Box;
   type Shelf is record Place : Integer := 1; Top : Box_Link; end record;
   procedure Free is new Ada.Unchecked_Deallocation (Cell, Link);
   procedure Free_Box is new Ada.Unchecked_Deallocation (Box, Box_Link);
   overriding procedure Finalize (Object : in out Box) is
      Last : Pair := Object.Size;
   begin
      if Object.Held /= null then
         declare
            Ends : Pair := Object.Held.Ends;
            Sum : Pair := Pair'(Low => Ends.Low + Last.Low, High => Ends.High);
         begin
            Ada.Text_IO.Put_Line (Integer'Image (Sum.Low));
            Ada.Text_IO.Put_Line (Integer'Image (Sum.High));
         end;
      end if;
      Free (Object.Held);
   exception
      when Constraint_Error => null;
   end Finalize;
   S : Shelf;
begin
   S.Top := new Box;
   S.Top.Held := new Cell;
   S.Top.Held.Ends.High := 20;
   S.Top.Size.Low := 40;
   Free_Box (S.Top);
   Ada.Text_IO.Put_Line (Integer'Image (S.Place));
end Main;
