with Ada.Finalization; with Ada.Text_IO;
procedure Main is
   type Clock is new Ada.Finalization.Controlled with record Hours : Integer := 1; end record;
   overriding procedure Adjust (Object : in out Clock);
   procedure Show (Given : Clock) is
   begin
      Ada.Text_IO.Put_Line (Integer'Image (Given.Hours));
   end Show;
   procedure Ring (Times : Integer) is
   begin
      for I in 1 .. Times loop
         Ada.Text_IO.Put_Line (Integer'Image (I));
      end loop;
   end Ring;
   overriding procedure Adjust (Object : in out Clock) is
   begin
      Ring (Object.Hours);
      Show (Object);
   end Adjust;
   One : Clock;
   Two : Clock;
begin
   One.Hours := 2;
   Two := One;
   One := Two;
end Main;
