with Ada.Finalization;
procedure Main is
   type Tick is record Length : Integer := 1; end record;
   type Hand is access Tick;
   type Clock is new Ada.Finalization.Controlled with record Hours : Integer := 0; end record;
   overriding procedure Adjust (Object : in out Clock);
   overriding procedure Adjust (Object : in out Clock) is
      Pointer : Hand;
   begin
      Pointer := new Tick;
      Object.Hours := Pointer.Length;
   exception
      when others => null;
   end Adjust;
   One : Clock;
   Two : Clock;
begin
   Two := One;
end Main;
