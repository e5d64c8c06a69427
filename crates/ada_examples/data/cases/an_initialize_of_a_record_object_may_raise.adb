with Ada.Finalization; with Ada.Text_IO; with Ada.Unchecked_Deallocation;
procedure Main is
   type Cell is record Value : Integer := 1; end record;
   type Link is access Cell;
   type Mark is new Ada.Finalization.Limited_Controlled with record Count : Integer := 0; end record;
   procedure Initialize (Object : in out Mark);
   procedure Free is new Ada.Unchecked_Deallocation (Cell, Link);
   procedure Initialize (Object : in out Mark) is
   begin
      raise Program_Error;
   end Initialize;
   A : Link := new Cell;
begin
   Free (A);
   declare
      Z : Link;
   begin
      A := new Cell;
      Z := A;
      declare
         M : Mark;
      begin
         null;
      end;
      A := Z;
   exception
      when Program_Error => Ada.Text_IO.Put_Line (Integer'Image (A.Value));
   end;
end Main;
