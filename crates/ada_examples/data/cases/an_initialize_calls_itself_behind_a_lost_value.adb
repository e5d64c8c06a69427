with Ada.Finalization; with Ada.Unchecked_Deallocation;
procedure Main is
   type Cell is record Value : Integer := 0; end record;
   type Ref is access Cell;
   procedure Free is new Ada.Unchecked_Deallocation (Cell, Ref);
   type Box is new Ada.Finalization.Controlled with record Value : Integer := 0; end record;
   overriding procedure Initialize (Object : in out Box);
   procedure Lose is
      R : Ref := new Cell;
   begin
      Free (R);
      R.Value := 1;
   end Lose;
   overriding procedure Initialize (Object : in out Box) is
      B : Box;
   begin
      Object.Value := B.Value;
   end Initialize;
begin
   Lose;
end Main;
