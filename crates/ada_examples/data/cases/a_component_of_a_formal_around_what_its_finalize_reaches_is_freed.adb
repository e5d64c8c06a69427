with Ada.Finalization; with Ada.Text_IO; with Ada.Unchecked_Deallocation;
procedure Main is
   type Cell;
   type Cell_Link is access Cell;
   type Guard;
   type Guard_Link is access Guard;
   type Cell is record Value : Integer := 1; Own : Guard_Link; end record;
   type Box is record First : Integer := 0; Part : Cell; end record;
   type Guard is new Ada.Finalization.Limited_Controlled with record Back : Cell_Link; end record;
   overriding procedure Finalize (Object : in out Guard);
   procedure Free_Cell is new Ada.Unchecked_Deallocation (Cell, Cell_Link);
   procedure Free is new Ada.Unchecked_Deallocation (Guard, Guard_Link);
   procedure Finalize (Object : in out Guard) is
      X : access Cell := Object.Back;
   begin
      X.Value := 2;
   exception
      when others =>
         null;
   end Finalize;
   procedure Drop (N : in out Box) is
      G : Guard_Link := new Guard;
      H : Guard_Link;
   begin
      Free (N.Part.Own);
      H := G;
      Free (G);
   end Drop;
   R : Box;
begin
   Drop (R);
end Main;
