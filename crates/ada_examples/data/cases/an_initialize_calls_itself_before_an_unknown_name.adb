with Ada.Finalization;
procedure Main is
   type Box is new Ada.Finalization.Controlled with record Value : Integer := 0; end record;
   overriding procedure Initialize (Object : in out Box);
   procedure Open is
      B : Box;
   begin
      null;
   end Open;
   overriding procedure Initialize (Object : in out Box) is
   begin
      Open;
      Nothing;
   end Initialize;
begin
   null;
end Main;
