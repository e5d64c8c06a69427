with Ada.Finalization; with Ada.Text_IO; with Ada.Unchecked_Deallocation;
procedure Main is
   type Box;
   type Box_Link is access Box;
   type Guard;
   type Guard_Link is access Guard;
   type Cell is record Value : Integer := 1; Own : Guard_Link; end record;
   type Box is record First : Integer := 0; Part : Cell; end record;
   type Guard is new Ada.Finalization.Limited_Controlled with record Back : Box_Link; end record;
   overriding procedure Finalize (Object : in out Guard);
   procedure Free_Box is new Ada.Unchecked_Deallocation (Box, Box_Link);
   procedure Free is new Ada.Unchecked_Deallocation (Guard, Guard_Link);
   procedure Finalize (Object : in out Guard) is
      X : access Box := Object.Back;
   begin
      X.First := 1;
   exception
      when others =>
         null;
   end Finalize;
   procedure Drop (N : in out Box) is
   begin
      Free (N.Part.Own);
   end Drop;
   A : Box_Link := new Box;
begin
   Drop (A.all);
end Main;
