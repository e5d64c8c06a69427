with Ada.Finalization; with Ada.Text_IO;
procedure Main is
   type Bell is record Sound : Integer := 4; end record;
   type Rope is access Bell;
   type Tower is new Ada.Finalization.Controlled with record Hung : Rope; end record;
   overriding procedure Adjust (Object : in out Tower);
   type Count is new Ada.Finalization.Controlled with record Steps : Integer := 1; end record;
   overriding procedure Initialize (Object : in out Count);
   overriding procedure Finalize (Object : in out Count);
   type Clock is new Ada.Finalization.Controlled with record Hours : Integer := 0; end record;
   overriding procedure Adjust (Object : in out Clock);
   procedure Lead (To : in out Tower) is
   begin
      To.Hung := null;
   end Lead;
   overriding procedure Adjust (Object : in out Tower) is
   begin
      Object.Hung := null;
   end Adjust;
   overriding procedure Initialize (Object : in out Count) is
   begin
      Object.Steps := 2;
      Ada.Text_IO.Put_Line ("begun");
   end Initialize;
   overriding procedure Finalize (Object : in out Count) is
   begin
      Ada.Text_IO.Put_Line (Integer'Image (Object.Steps));
   end Finalize;
   overriding procedure Adjust (Object : in out Clock) is
      Inner : Count;
      Square : Tower;
   begin
      Square.Hung := new Bell;
      Object.Hours := Square.Hung.Sound;
      Lead (Square);
   exception
      when others => null;
   end Adjust;
   One : Clock;
   Two : Clock := One;
   Church : Tower;
   Chapel : Tower := Church;
begin
   Church := Chapel;
   Ada.Text_IO.Put_Line (Integer'Image (Two.Hours));
end Main;
