with Ada.Finalization;
procedure Main is
   type Box is new Ada.Finalization.Controlled with record Value : Integer := 0; end record;
   overriding procedure Adjust (Object : in out Box);
   overriding procedure Adjust (Object : in out Box) is
      Twin : Box := Object;
   begin
      Object.Value := Twin.Value;
   end Adjust;
begin
   null;
end Main;
