with Ada.Finalization; with Ada.Text_IO; with Ada.Unchecked_Deallocation;
procedure Main is
   type Cell is record Value : Integer := 1; end record;
   type Link is access Cell;
   type Mark is new Ada.Finalization.Controlled with record Count : Integer := 0; end record;
   procedure Initialize (Object : in out Mark);
   procedure Free is new Ada.Unchecked_Deallocation (Cell, Link);
   procedure Initialize (Object : in out Mark) is
      X : Link;
   begin
      Free (X);
   end Initialize;
   A : Link := new Cell;
   B : access Cell := A;
   M : Mark;
begin
   Ada.Text_IO.Put_Line (Integer'Image (B.Value));
end Main;
