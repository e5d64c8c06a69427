with Ada.Finalization; with Ada.Text_IO; with Ada.Unchecked_Deallocation;
procedure Main is
   type Cell;
   type Cell_Link is access Cell;
   type Crate;
   type Ref is access Crate;
   type Cell is record Value : Integer := 1; Own : Ref; end record;
   type Guard is new Ada.Finalization.Limited_Controlled with record Back : Cell_Link; end record;
   type Crate is record First : Integer := 0; Part : Guard; end record;
   overriding procedure Finalize (Object : in out Guard);
   procedure Free_Cell is new Ada.Unchecked_Deallocation (Cell, Cell_Link);
   procedure Free is new Ada.Unchecked_Deallocation (Crate, Ref);
   procedure Peek (N : in Cell) is
   begin
      Ada.Text_IO.Put_Line (Integer'Image (N.Value));
   end Peek;
   procedure Finalize (Object : in out Guard) is
      X : access Cell := Object.Back;
   begin
      Peek (X.all);
   exception
      when others =>
         null;
   end Finalize;
   procedure Drop (N : in out Cell) is
   begin
      Free (N.Own);
   end Drop;
   A : Cell_Link := new Cell;
begin
   Drop (A.all);
end Main;
