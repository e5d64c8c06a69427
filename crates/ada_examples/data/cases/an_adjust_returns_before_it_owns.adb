with Ada.Finalization;
procedure Main is
   type Cell is record
      Value : Integer := 0;
   end record;
   type Ref is access Cell;
   type Box is new Ada.Finalization.Controlled with record
      Count : Integer := 0;
      Item  : Ref;
   end record;
   overriding procedure Adjust (Object : in out Box);
   procedure Adjust (Object : in out Box) is
   begin
      if Object.Count = 0 then
         return;
      end if;
      Object.Item := null;
   end Adjust;
   A : Box;
   B : Box;
begin
   B := A;
end Main;
