with Ada.Finalization; with Ada.Text_IO;
procedure Main is
   type Seat is new Ada.Finalization.Controlled with record Row : Integer := 0; end record;
   type Booking is record First : Seat; Second : Seat; Paid : Boolean := False; end record;
   overriding procedure Finalize (Object : in out Seat);
   procedure Release (Row : Integer) is
   begin
      if Row = 0 then
         Ada.Text_IO.Put_Line ("no seat");
      else
         Ada.Text_IO.Put_Line (Integer'Image (Row));
      end if;
   end Release;
   overriding procedure Finalize (Object : in out Seat) is
   begin
      Release (Object.Row);
      Object.Row := 0;
   end Finalize;
   Old_One : Booking;
   New_One : Booking;
begin
   Old_One.First.Row := 1;
   Old_One.Second.Row := 2;
   New_One.First.Row := 3;
   Old_One.Second := New_One.First;
   Ada.Text_IO.Put_Line ("a part assigned");
   New_One := Old_One;
   Ada.Text_IO.Put_Line ("a booking assigned");
end Main;
