with Ada.Finalization;
procedure Main is
   type Cell is record
      Value : Integer := 0;
   end record;
   type Ref is access Cell;
   type Box is new Ada.Finalization.Controlled with record
      Item : Ref;
   end record;
   overriding procedure Adjust (Object : in out Box);
   procedure Adjust (Object : in out Box) is
      Taken : Ref;
   begin
      Object.Item := new Cell;
      Taken := Object.Item;
      Object.Item := null;
   exception
      when others =>
         Object.Item := null;
   end Adjust;
   A : Box;
   B : Box;
begin
   B := A;
end Main;
