with Ada.Finalization;
procedure Main is
   type Key is record Teeth : Integer := 4; end record;
   type Chain is access Key;
   type Ring is new Ada.Finalization.Controlled with record Count : Integer := 0; Held : Chain; end record;
   overriding procedure Adjust (Object : in out Ring);
   procedure Cut (Given : Ring) is
   begin
      Given.Held.Teeth := 5;
   exception
      when Constraint_Error => null;
   end Cut;
   overriding procedure Adjust (Object : in out Ring) is
   begin
      Object.Held := null;
      Cut (Object);
   end Adjust;
begin
   null;
end Main;
