with Ada.Finalization; with Ada.Unchecked_Deallocation;
procedure Main is
   type Cell;
   type Link is access Cell;
   type Mark is new Ada.Finalization.Limited_Controlled with record Count : Integer := 0; Back : Link; end record;
   type Note is access Mark;
   type Cell is record Value : Integer := 1; Kept : Note; end record;
   procedure Finalize (Object : in out Mark);
   procedure Free is new Ada.Unchecked_Deallocation (Cell, Link);
   procedure Free_Mark is new Ada.Unchecked_Deallocation (Mark, Note);
   procedure Finalize (Object : in out Mark) is
   begin
      Free (Object.Back);
   end Finalize;
   A : Link := new Cell;
begin
   Free_Mark (A.Kept);
end Main;
