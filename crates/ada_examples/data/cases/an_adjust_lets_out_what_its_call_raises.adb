with Ada.Finalization; with Ada.Text_IO;
procedure Main is
   type Clock is new Ada.Finalization.Controlled with record Hours : Integer := 0; end record;
   overriding procedure Adjust (Object : in out Clock);
   Late : exception;
   procedure Check (Hours : Integer) is
   begin
      if Hours > 0 then
         raise Late;
      end if;
   end Check;
   overriding procedure Adjust (Object : in out Clock) is
   begin
      Check (Object.Hours);
   end Adjust;
   One : Clock;
   Two : Clock;
begin
   Two := One;
end Main;
