with Ada.Finalization; with Ada.Text_IO;
procedure Main is
   type Mark is new Ada.Finalization.Limited_Controlled with record Number : Integer := 4; end record;
   overriding procedure Initialize (Object : in out Mark);
   overriding procedure Finalize (Object : in out Mark);
   type Clock is new Ada.Finalization.Controlled with record Hours : Integer := 0; end record;
   overriding procedure Adjust (Object : in out Clock);
   overriding procedure Initialize (Object : in out Mark) is
   begin
      Ada.Text_IO.Put_Line ("begins");
      Object.Number := 5;
   end Initialize;
   overriding procedure Finalize (Object : in out Mark) is
   begin
      Ada.Text_IO.Put_Line ("ends");
   end Finalize;
   overriding procedure Adjust (Object : in out Clock) is
      Here : Mark;
   begin
      Object.Hours := Here.Number;
   end Adjust;
   One : Clock;
   Two : Clock;
begin
   Two := One;
   Ada.Text_IO.Put_Line (Integer'Image (Two.Hours));
end Main;
