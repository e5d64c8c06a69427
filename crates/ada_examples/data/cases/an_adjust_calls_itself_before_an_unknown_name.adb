with Ada.Finalization;
procedure Main is
   type Box is new Ada.Finalization.Controlled with record Value : Integer := 0; end record;
   overriding procedure Adjust (Object : in out Box);
   procedure Copy is
      A : Box;
      B : Box;
   begin
      A := B;
   end Copy;
   overriding procedure Adjust (Object : in out Box) is
   begin
      Copy;
   end Adjust;
begin
   Copy;
   Nothing;
end Main;
