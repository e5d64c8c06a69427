with Ada.Finalization; with Ada.Unchecked_Deallocation;
procedure Main is
   type Nut is new Ada.Finalization.Controlled with record Value : Integer := 0; end record;
   overriding procedure Finalize (Object : in out Nut);
   type Link is access Nut;
   procedure Free is new Ada.Unchecked_Deallocation (Nut, Link);
   type Bolt is new Ada.Finalization.Controlled with record Value : Integer := 0; end record;
   overriding procedure Initialize (Object : in out Bolt);
   overriding procedure Finalize (Object : in out Nut) is
      B : Bolt;
   begin
      Object.Value := B.Value;
   end Finalize;
   overriding procedure Initialize (Object : in out Bolt) is
      L : Link;
   begin
      Free (L);
   end Initialize;
begin
   null;
end Main;
