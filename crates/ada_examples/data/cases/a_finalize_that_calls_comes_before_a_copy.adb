with Ada.Finalization; with Ada.Text_IO;
procedure Main is
   type Ticket is new Ada.Finalization.Controlled with record Number : Integer := 0; end record;
   overriding procedure Adjust (Object : in out Ticket);
   overriding procedure Finalize (Object : in out Ticket);
   procedure Tell (Number : Integer) is
   begin
      Ada.Text_IO.Put_Line ("finalized");
      Ada.Text_IO.Put_Line (Integer'Image (Number));
   end Tell;
   overriding procedure Adjust (Object : in out Ticket) is
   begin
      Ada.Text_IO.Put_Line ("adjusted");
      Ada.Text_IO.Put_Line (Integer'Image (Object.Number));
   end Adjust;
   overriding procedure Finalize (Object : in out Ticket) is
   begin
      Tell (Object.Number);
   end Finalize;
   A : Ticket;
   B : Ticket;
begin
   A.Number := 1;
   B.Number := 2;
   A := B;
   A := A;
   Ada.Text_IO.Put_Line ("assigned");
   A.Number := 3;
end Main;
