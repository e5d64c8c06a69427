with Ada.Finalization;
procedure Main is
   type Nut is new Ada.Finalization.Controlled with record Value : Integer := 0; end record;
   overriding procedure Initialize (Object : in out Nut);
   type Bolt is new Ada.Finalization.Controlled with record Value : Integer := 0; end record;
   overriding procedure Initialize (Object : in out Bolt);
   overriding procedure Initialize (Object : in out Bolt) is
      N : Nut;
   begin
      Object.Value := N.Value;
   end Initialize;
   overriding procedure Initialize (Object : in out Nut) is
      B : Bolt;
   begin
      Object.Value := B.Value;
   end Initialize;
begin
   null;
end Main;
