with Ada.Finalization; with Ada.Text_IO;
procedure Main is
   type Bell is record Sound : Integer := 4; end record;
   type Rope is access Bell;
   type Tower is new Ada.Finalization.Controlled with record Hung : Rope; end record;
   overriding procedure Adjust (Object : in out Tower);
   type Clock is new Ada.Finalization.Controlled with record Hours : Integer := 0; end record;
   overriding procedure Adjust (Object : in out Clock);
   type Church is record Face : Clock; Roof : Tower; end record;
   procedure Ring (Times : Integer) is
   begin
      if Times > 0 then
         Ada.Text_IO.Put_Line ("ding");
      end if;
   end Ring;
   overriding procedure Adjust (Object : in out Tower) is
   begin
      Object.Hung := null;
   end Adjust;
   overriding procedure Adjust (Object : in out Clock) is
   begin
      Ring (1);
   end Adjust;
   One : Church;
   Two : Church;
begin
   Two := One;
end Main;
