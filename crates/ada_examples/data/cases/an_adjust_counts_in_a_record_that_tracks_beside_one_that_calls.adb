with Ada.Finalization; with Ada.Text_IO;
procedure Main is
   type Bell is record Sound : Integer := 4; end record;
   type Rope is access Bell;
   type Tower is new Ada.Finalization.Controlled with record Hung : Rope; end record;
   overriding procedure Adjust (Object : in out Tower);
   type Tally is new Ada.Finalization.Controlled with record Copies : Integer := 0; end record;
   overriding procedure Adjust (Object : in out Tally);
   type Church is record Marks : Tally; Roof : Tower; end record;
   type Clock is new Ada.Finalization.Controlled with record Marks : Tally; Hours : Integer := 0; end record;
   overriding procedure Adjust (Object : in out Clock);
   procedure Ring (Hours : in out Integer; Times : Integer) is
   begin
      Hours := Hours + Times;
   exception
      when others => Hours := 0;
   end Ring;
   overriding procedure Adjust (Object : in out Tower) is
   begin
      Object.Hung := new Bell'(Sound => Object.Hung.Sound);
   exception
      when others => Object.Hung := null;
   end Adjust;
   overriding procedure Adjust (Object : in out Tally) is
   begin
      Object.Copies := Object.Copies + 1;
   exception
      when others => Object.Copies := 0;
   end Adjust;
   overriding procedure Adjust (Object : in out Clock) is
   begin
      Ring (Object.Hours, Object.Marks.Copies);
   exception
      when others => null;
   end Adjust;
   Old : Church;
   One : Clock;
begin
   Old.Roof.Hung := new Bell;
   declare
      Recent : Church := Old;
      Two : Clock := One;
   begin
      Old := Recent;
      One := Two;
      Ada.Text_IO.Put_Line (Integer'Image (Old.Marks.Copies));
      Ada.Text_IO.Put_Line (Integer'Image (Old.Roof.Hung.Sound));
   end;
   Ada.Text_IO.Put_Line (Integer'Image (One.Hours));
end Main;
