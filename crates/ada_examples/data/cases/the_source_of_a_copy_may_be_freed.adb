with Ada.Finalization; with Ada.Unchecked_Deallocation;
procedure Main is
   type Mark is new Ada.Finalization.Controlled with record Count : Integer := 0; end record;
   type Leaf is record Part : Mark; end record;
   type Ref is access Leaf;
   type Cell is record Value : Integer := 1; To : Ref; end record;
   type Link is access Cell;
   procedure Finalize (Object : in out Mark);
   procedure Free is new Ada.Unchecked_Deallocation (Cell, Link);
   procedure Free_Leaf is new Ada.Unchecked_Deallocation (Leaf, Ref);
   procedure Finalize (Object : in out Mark) is
      X : Link;
   begin
      Free (X);
   end Finalize;
   A : Link := new Cell;
   M : Mark;
begin
   A.To := new Leaf;
   M := A.To.Part;
end Main;
