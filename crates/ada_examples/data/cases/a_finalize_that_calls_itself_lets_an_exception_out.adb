with Ada.Finalization;
procedure Main is
   type Box is new Ada.Finalization.Controlled with record Value : Integer := 0; end record;
   overriding procedure Finalize (Object : in out Box);
   overriding procedure Finalize (Object : in out Box) is
      B : Box;
   begin
      Object.Value := B.Value + 1;
   end Finalize;
begin
   null;
end Main;
