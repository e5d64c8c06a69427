with Ada.Finalization; with Ada.Text_IO; with Ada.Unchecked_Deallocation;
procedure Main is
   type Cell is record Value : Integer := 2; end record;
   type Cells is access Cell;
   type Count is new Ada.Finalization.Controlled with record Value : Integer := 5; end record;
   overriding procedure Adjust (Object : in out Count);
   procedure Free is new Ada.Unchecked_Deallocation (Cell, Cells);
   type Box;
   type Boxes is access Box;
   type Box is new Ada.Finalization.Limited_Controlled with record Held : Cells; Own : Count; Next : Boxes; end record;
   overriding procedure Initialize (Object : in out Box);
   overriding procedure Finalize (Object : in out Box);
   procedure Drop (C : in out Cells) is
   begin
      Free (C);
   end Drop;
   overriding procedure Adjust (Object : in out Count) is
      Spare : Cells;
   begin
      Drop (Spare);
      Object.Value := Object.Value + 1;
   exception
      when Constraint_Error => Object.Value := 0;
   end Adjust;
   overriding procedure Initialize (Object : in out Box) is
   begin
      Object.Held := new Cell;
   end Initialize;
   overriding procedure Finalize (Object : in out Box) is
      Last : Count := Object.Own;
   begin
      declare
         Twin : Count := Last;
      begin
         Ada.Text_IO.Put_Line (Integer'Image (Twin.Value));
      end;
      Free (Object.Held);
   end Finalize;
   Top : Boxes;
begin
   Top := new Box;
   Top.Next := new Box;
   Ada.Text_IO.Put_Line ("left");
end Main;
