with Ada.Finalization;
procedure Main is
   type Box is new Ada.Finalization.Controlled with record Value : Integer := 0; end record;
   overriding procedure Finalize (Object : in out Box);
   overriding procedure Initialize (Object : in out Box);
   overriding procedure Finalize (Object : in out Box) is
   begin
      raise Program_Error;
   end Finalize;
   overriding procedure Initialize (Object : in out Box) is
      B : Box;
   begin
      null;
   end Initialize;
begin
   null;
end Main;
