with Ada.Finalization; with Ada.Text_IO; with Ada.Unchecked_Deallocation;
procedure Main is
   type Cell;
   type Cell_Link is access Cell;
   type Guard;
   type Guard_Link is access Guard;
   type Cell is record Value : Integer := 1; Own : Guard_Link; end record;
   type Guard is new Ada.Finalization.Limited_Controlled with record Back : Cell_Link; end record;
   overriding procedure Finalize (Object : in out Guard);
   procedure Free is new Ada.Unchecked_Deallocation (Guard, Guard_Link);
   procedure Finalize (Object : in out Guard) is
   begin
      Ada.Text_IO.Put_Line ("end");
   end Finalize;
   procedure Drop (N : in out Cell) is
   begin
      Free (N.Own);
   end Drop;
   A : Cell_Link := new Cell;
begin
   A.Own := new Guard;
   Drop (A.all);
   Drop (A.all);
end Main;
