with Ada.Finalization;
procedure Main is
   type Box is new Ada.Finalization.Controlled with record Value : Integer := 0; end record;
   overriding procedure Initialize (Object : in out Box);
   overriding procedure Finalize (Object : in out Box);
   overriding procedure Initialize (Object : in out Box) is
      type Link is access Box;
   begin
      null;
   end Initialize;
   overriding procedure Finalize (Object : in out Box) is
      B : Box;
   begin
      null;
   end Finalize;
begin
   null;
end Main;
