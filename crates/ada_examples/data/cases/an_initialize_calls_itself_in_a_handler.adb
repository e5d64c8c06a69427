with Ada.Finalization;
procedure Main is
   type Box is new Ada.Finalization.Controlled with record Value : Integer := 0; end record;
   overriding procedure Initialize (Object : in out Box);
   overriding procedure Initialize (Object : in out Box) is
   begin
      Object.Value := Object.Value + 1;
   exception
      when Constraint_Error =>
         declare
            B : Box;
         begin
            Object.Value := B.Value;
         end;
   end Initialize;
begin
   null;
end Main;
