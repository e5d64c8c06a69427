with Ada.Finalization; with Ada.Text_IO; with Ada.Unchecked_Deallocation;
procedure Main is
   type Node is record Value : Integer := 1; end record;
   type Node_Link is access Node;
   type Guard is new Ada.Finalization.Limited_Controlled with record Back : Node_Link; end record;
   type Guard_Link is access Guard;
   type Cell is record Value : Integer := 1; Own : Guard_Link; end record;
   overriding procedure Finalize (Object : in out Guard);
   procedure Free_Node is new Ada.Unchecked_Deallocation (Node, Node_Link);
   procedure Free is new Ada.Unchecked_Deallocation (Guard, Guard_Link);
   procedure Finalize (Object : in out Guard) is
      X : access Node := Object.Back;
   begin
      X.Value := 2;
   exception
      when others =>
         null;
   end Finalize;
   procedure Drop (N : in out Cell) is
      G : Guard_Link := new Guard;
      H : Guard_Link;
   begin
      Free (N.Own);
      H := G;
      Free (G);
   end Drop;
   R : Cell;
begin
   Drop (R);
end Main;
