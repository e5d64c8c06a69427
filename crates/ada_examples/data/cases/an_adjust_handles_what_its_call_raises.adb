with Ada.Finalization; with Ada.Text_IO;
procedure Main is
   type Clock is new Ada.Finalization.Controlled with record Hours : Integer := 0; end record;
   overriding procedure Adjust (Object : in out Clock);
   Late : exception;
   procedure Check (Hours : Integer) is
   begin
      if Hours > 0 then
         raise Late;
      end if;
   end Check;
   overriding procedure Adjust (Object : in out Clock) is
   begin
      Check (Object.Hours);
      Object.Hours := 7;
   exception
      when others => Ada.Text_IO.Put_Line ("late");
   end Adjust;
   One : Clock;
   Two : Clock;
begin
   Two := One;
   One := Two;
   Ada.Text_IO.Put_Line (Integer'Image (One.Hours));
end Main;
