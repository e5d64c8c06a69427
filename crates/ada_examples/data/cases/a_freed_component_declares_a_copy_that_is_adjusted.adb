with Ada.Finalization; with Ada.Text_IO; with Ada.Unchecked_Deallocation;
procedure Main is
   type Cell is record Value : Integer := 2; end record;
   type Cells is access Cell;
   type Count is new Ada.Finalization.Controlled with record Value : Integer := 5; end record;
   overriding procedure Adjust (Object : in out Count);
   type Box is new Ada.Finalization.Limited_Controlled with record Held : Cells; Own : Count; end record;
   overriding procedure Initialize (Object : in out Box);
   overriding procedure Finalize (Object : in out Box);
   type Boxes is access Box;
   type Holder is record Item : Boxes; Number : Integer := 0; end record;
   type Holders is access Holder;
   procedure Free is new Ada.Unchecked_Deallocation (Cell, Cells);
   procedure Free_Box is new Ada.Unchecked_Deallocation (Box, Boxes);
   procedure Free_Holder is new Ada.Unchecked_Deallocation (Holder, Holders);
   overriding procedure Adjust (Object : in out Count) is
      Spare : Cells;
   begin
      Free (Spare);
      Object.Value := Object.Value + 1;
   exception
      when Constraint_Error => Object.Value := 0;
   end Adjust;
   overriding procedure Initialize (Object : in out Box) is
   begin
      Object.Held := new Cell;
   end Initialize;
   overriding procedure Finalize (Object : in out Box) is
      Last : Count := Object.Own;
   begin
      Free (Object.Held);
      Ada.Text_IO.Put_Line (Integer'Image (Last.Value));
   end Finalize;
   H : Holders;
begin
   H := new Holder;
   H.Item := new Box;
   Free_Box (H.Item);
   H.Number := H.Number + 1;
   Ada.Text_IO.Put_Line (Integer'Image (H.Number));
   Free_Holder (H);
end Main;
