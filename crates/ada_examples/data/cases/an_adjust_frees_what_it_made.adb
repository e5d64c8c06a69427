with Ada.Unchecked_Deallocation;
with Ada.Finalization;
procedure Main is
   type Cell is record
      Value : Integer := 0;
   end record;
   type Ref is access Cell;
   type Box is new Ada.Finalization.Controlled with record
      Item : Ref;
   end record;
   overriding procedure Adjust (Object : in out Box);
   procedure Free is new Ada.Unchecked_Deallocation (Cell, Ref);
   procedure Adjust (Object : in out Box) is
   begin
      Object.Item := new Cell;
      Free (Object.Item);
   exception
      when others =>
         Object.Item := null;
   end Adjust;
   A : Box;
   B : Box;
begin
   B := A;
end Main;
