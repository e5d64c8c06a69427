with Ada.Finalization;
procedure Main is
   type Bell is new Ada.Finalization.Limited_Controlled with record Sound : Integer := 4; end record;
   type Rope is access Bell;
   type Hook is record Hung : Rope; Height : Integer := 7; end record;
   type Beam is record Front : Hook; Back : Hook; end record;
   type Joint is access Beam;
   type Tower is new Ada.Finalization.Limited_Controlled with record Top : Joint; end record;
   overriding procedure Finalize (Object : in out Tower);
   overriding procedure Finalize (Object : in out Tower) is
   begin
      Object.Top.Back.Hung := null;
   exception
      when Constraint_Error => null;
   end Finalize;
begin
   null;
end Main;
