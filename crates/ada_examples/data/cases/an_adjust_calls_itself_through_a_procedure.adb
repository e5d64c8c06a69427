with Ada.Finalization;
procedure Main is
   type Box is new Ada.Finalization.Controlled with record Value : Integer := 0; end record;
   overriding procedure Adjust (Object : in out Box);
   procedure Copy (Source : in Box) is
      Twin : Box;
   begin
      Twin := Source;
   end Copy;
   overriding procedure Adjust (Object : in out Box) is
   begin
      Copy (Object);
   end Adjust;
begin
   null;
end Main;
