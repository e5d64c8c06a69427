with Ada.Finalization; with Ada.Unchecked_Deallocation;
procedure Main is
   type Mark is new Ada.Finalization.Limited_Controlled with record Count : Integer := 0; end record;
   type Note is access Mark;
   type Cell is record Value : Integer := 1; Kept : Note; end record;
   type Link is access Cell;
   procedure Initialize (Object : in out Mark);
   procedure Free is new Ada.Unchecked_Deallocation (Cell, Link);
   procedure Initialize (Object : in out Mark) is
      X : Link;
   begin
      Free (X);
   end Initialize;
   A : Link := new Cell;
begin
   A.Kept := new Mark;
end Main;
