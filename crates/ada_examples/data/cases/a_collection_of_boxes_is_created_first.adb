with Ada.Finalization; with Ada.Unchecked_Deallocation;
procedure Main is
   type Cell is record Value : Integer := 0; end record;
   type Ref is access Cell;
   type Box is new Ada.Finalization.Limited_Controlled with record Item : Ref; Number : Integer := 0; end record;
   overriding procedure Finalize (Object : in out Box);
   type Box_Link is access Box;
   procedure Free_Box is new Ada.Unchecked_Deallocation (Box, Box_Link);
   procedure Free is new Ada.Unchecked_Deallocation (Cell, Ref);
   overriding procedure Finalize (Object : in out Box) is
   begin
      Object.Item := null;
   end Finalize;
   B : Box_Link := new Box;
begin
   B.Item := new Cell;
end Main;
