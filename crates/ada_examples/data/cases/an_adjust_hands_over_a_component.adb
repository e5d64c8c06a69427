with Ada.Finalization;
procedure Main is
   type Cell is record
      Value : Integer := 0;
   end record;
   type Ref is access Cell;
   type Box is new Ada.Finalization.Controlled with record
      Item : Ref;
   end record;
   overriding procedure Adjust (Object : in out Box);
   procedure Renew (Item : in out Ref) is
   begin
      Item := null;
   end Renew;
   procedure Adjust (Object : in out Box) is
   begin
      Object.Item := null;
      Renew (Object.Item);
   end Adjust;
   A : Box;
   B : Box;
begin
   B := A;
end Main;
