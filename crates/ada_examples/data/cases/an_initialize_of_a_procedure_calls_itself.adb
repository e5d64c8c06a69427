with Ada.Finalization;
procedure Main is
   procedure Work is
      type Box is new Ada.Finalization.Controlled with record Value : Integer := 0; end record;
      overriding procedure Initialize (Object : in out Box);
      overriding procedure Initialize (Object : in out Box) is
      begin
         declare
            B : Box;
         begin
            Object.Value := B.Value;
         end;
      end Initialize;
   begin
      null;
   end Work;
begin
   Work;
end Main;
