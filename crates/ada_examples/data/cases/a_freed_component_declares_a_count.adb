with Ada.Finalization; with Ada.Text_IO; with Ada.Unchecked_Deallocation;
procedure Main is
   type Cell is record Value : Integer := 6; end record;
   type Link is access Cell;
   type Count is new Ada.Finalization.Limited_Controlled with record Value : Integer := 0; end record;
   type Box is new Ada.Finalization.Limited_Controlled with record Held : Link; end record;
   type Box_Link is access Box;
   type Shelf is record Left : Box_Link; Right : Box_Link; end record;
   type Shelf_Link is access Shelf;
   overriding procedure Finalize (Object : in out Count);
   overriding procedure Finalize (Object : in out Box);
   procedure Free is new Ada.Unchecked_Deallocation (Cell, Link);
   procedure Free_Box is new Ada.Unchecked_Deallocation (Box, Box_Link);
   procedure Free_Shelf is new Ada.Unchecked_Deallocation (Shelf, Shelf_Link);
   overriding procedure Finalize (Object : in out Count) is
   begin
      Ada.Text_IO.Put_Line (Integer'Image (Object.Value));
   end Finalize;
   overriding procedure Finalize (Object : in out Box) is
      C : Count;
   begin
      if Object.Held /= null then
         C.Value := Object.Held.Value;
      end if;
      Free (Object.Held);
      declare
         D : Count;
      begin
         D.Value := C.Value + 1;
      end;
   exception
      when Constraint_Error => null;
   end Finalize;
   S : Shelf;
   P : Shelf_Link;
begin
   S.Left := new Box;
   S.Left.Held := new Cell;
   S.Right := new Box;
   Free_Box (S.Left);
   P := new Shelf;
   P.Left := new Box;
   P.Left.Held := new Cell'(Value => 3);
   Free_Box (P.Left);
   Free_Box (S.Right);
   Free_Shelf (P);
end Main;
