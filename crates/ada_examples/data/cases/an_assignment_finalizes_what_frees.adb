with Ada.Finalization; with Ada.Text_IO; with Ada.Unchecked_Deallocation;
procedure Main is
   type Cell is record Value : Integer := 1; end record;
   type Link is access Cell;
   type Mark is new Ada.Finalization.Controlled with record Count : Integer := 0; end record;
   overriding procedure Finalize (Object : in out Mark);
   procedure Free is new Ada.Unchecked_Deallocation (Cell, Link);
   overriding procedure Finalize (Object : in out Mark) is
      Nothing : Link;
   begin
      Free (Nothing);
      Ada.Text_IO.Put_Line (Integer'Image (Object.Count));
   end Finalize;
   A : Link := new Cell;
   M : Mark;
   N : Mark;
begin
   M.Count := 1;
   N.Count := 2;
   M := N;
   declare
      B : access Cell := A;
   begin
      Ada.Text_IO.Put_Line (Integer'Image (B.Value));
   end;
   Free (A);
end Main;
