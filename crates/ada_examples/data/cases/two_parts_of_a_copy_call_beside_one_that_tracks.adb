with Ada.Finalization; with Ada.Text_IO;
procedure Main is
   type Bell is record Sound : Integer := 4; end record;
   type Rope is access Bell;
   type Tower is new Ada.Finalization.Controlled with record Hung : Rope; end record;
   overriding procedure Adjust (Object : in out Tower);
   type Town is record Left : Tower; Right : Tower; end record;
   type Clock is new Ada.Finalization.Controlled with record Hours : Integer := 0; end record;
   overriding procedure Adjust (Object : in out Clock);
   type Wall is record Upper : Clock; Lower : Clock; end record;
   procedure Ring (Times : in out Integer) is
   begin
      Times := Times + 1;
      Ada.Text_IO.Put_Line (Integer'Image (Times));
   end Ring;
   overriding procedure Adjust (Object : in out Tower) is
   begin
      Object.Hung := new Bell'(Sound => Object.Hung.Sound + 1);
   exception
      when others => Object.Hung := null;
   end Adjust;
   overriding procedure Adjust (Object : in out Clock) is
   begin
      Ring (Object.Hours);
   exception
      when others => null;
   end Adjust;
   Old : Town;
   White : Wall;
begin
   Old.Right.Hung := new Bell;
   White.Lower.Hours := 6;
   declare
      Recent : Town := Old;
      Gray : Wall := White;
   begin
      Recent.Left := Recent.Right;
      White := Gray;
      Ada.Text_IO.Put_Line (Integer'Image (Recent.Left.Hung.Sound));
   end;
   Ada.Text_IO.Put_Line (Integer'Image (White.Lower.Hours));
end Main;
