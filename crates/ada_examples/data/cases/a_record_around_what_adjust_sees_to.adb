with Ada.Finalization;
procedure Main is
   type Cell is record
      Value : Integer := 0;
   end record;
   type Ref is access Cell;
   type Box is new Ada.Finalization.Controlled with record
      Item : Ref;
   end record;
   overriding procedure Adjust (Object : in out Box);
   type Pair is record
      Inner : Box;
      Count : Integer := 0;
   end record;
   procedure Adjust (Object : in out Box) is
   begin
      Object.Item := null;
   end Adjust;
   A : Pair;
   B : Pair;
begin
   B := A;
end Main;
