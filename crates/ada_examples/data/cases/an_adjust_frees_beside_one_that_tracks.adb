with Ada.Finalization; with Ada.Text_IO; with Ada.Unchecked_Deallocation;
procedure Main is
   type Tick is record Length : Integer := 6; end record;
   type Hand is access Tick;
   type Clock is new Ada.Finalization.Controlled with record Hours : Integer := 0; end record;
   overriding procedure Adjust (Object : in out Clock);
   type Bell is record Sound : Integer := 4; end record;
   type Rope is access Bell;
   type Tower is new Ada.Finalization.Controlled with record Hung : Rope; end record;
   overriding procedure Adjust (Object : in out Tower);
   overriding procedure Finalize (Object : in out Tower);
   procedure Free is new Ada.Unchecked_Deallocation (Tick, Hand);
   procedure Release is new Ada.Unchecked_Deallocation (Bell, Rope);
   overriding procedure Adjust (Object : in out Clock) is
      Pointer : Hand;
   begin
      Pointer := new Tick;
      Object.Hours := Object.Hours + Pointer.Length;
      Free (Pointer);
   exception
      when others => null;
   end Adjust;
   overriding procedure Adjust (Object : in out Tower) is
   begin
      Object.Hung := new Bell'(Sound => Object.Hung.Sound);
   exception
      when others => Object.Hung := null;
   end Adjust;
   overriding procedure Finalize (Object : in out Tower) is
   begin
      Release (Object.Hung);
   end Finalize;
   One : Clock;
   Church : Tower;
begin
   Church.Hung := new Bell;
   declare
      Two : Clock := One;
      Copy : Tower := Church;
   begin
      Copy.Hung.Sound := Two.Hours;
      One := Two;
      Church := Copy;
   end;
   Ada.Text_IO.Put_Line (Integer'Image (One.Hours));
   Ada.Text_IO.Put_Line (Integer'Image (Church.Hung.Sound));
end Main;
