with Ada.Finalization;
procedure Main is
   type Box is new Ada.Finalization.Controlled with record Value : Integer := 0; end record;
   overriding procedure Initialize (Object : in out Box);
   overriding procedure Initialize (Object : in out Box) is
   begin
      declare
         B : Box;
      begin
         Nothing;
      end;
   end Initialize;
begin
   null;
end Main;
