with Ada.Finalization;
procedure Main is
   type Box is new Ada.Finalization.Controlled with record Value : Integer := 0; end record;
   overriding procedure Initialize (Object : in out Box);
   procedure Make is
      B : Box;
   begin
      null;
   end Make;
   overriding procedure Initialize (Object : in out Box) is
   begin
      Make;
   end Initialize;
begin
   Make;
end Main;
