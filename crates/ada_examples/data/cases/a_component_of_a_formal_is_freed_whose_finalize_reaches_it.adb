with Ada.Finalization; with Ada.Text_IO; with Ada.Unchecked_Deallocation;
procedure Main is
   type Cell;
   type Cell_Link is access Cell;
   type Guard;
   type Guard_Link is access Guard;
   type Cell is record Value : Integer := 1; Own : Guard_Link; Other : Guard_Link; end record;
   type Guard is new Ada.Finalization.Limited_Controlled with record Value : Integer := 2; Back : Cell_Link; end record;
   overriding procedure Finalize (Object : in out Guard);
   procedure Free_Cell is new Ada.Unchecked_Deallocation (Cell, Cell_Link);
   procedure Free is new Ada.Unchecked_Deallocation (Guard, Guard_Link);
   procedure Finalize (Object : in out Guard) is
      X : Cell_Link;
   begin
      X := Object.Back;
      Object.Back := null;
      X.Other := X.Own;
      X.Own := null;
   exception
      when others =>
         null;
   end Finalize;
   procedure Drop (N : in out Cell) is
   begin
      Free (N.Own);
   end Drop;
   A : Cell_Link := new Cell;
   B : access Cell := A;
begin
   B.Own := new Guard;
   B.Own.Back := A;
   Drop (B.all);
   Ada.Text_IO.Put_Line (Integer'Image (B.Other.Value));
end Main;
