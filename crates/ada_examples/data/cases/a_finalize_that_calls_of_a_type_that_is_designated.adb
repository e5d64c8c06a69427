with Ada.Finalization; with Ada.Text_IO;
procedure Main is
   type Ticket is new Ada.Finalization.Controlled with record Number : Integer := 0; end record;
   overriding procedure Finalize (Object : in out Ticket);
   type Ticket_Link is access Ticket;
   procedure Tell (Number : Integer) is
   begin
      Ada.Text_IO.Put_Line (Integer'Image (Number));
   end Tell;
   overriding procedure Finalize (Object : in out Ticket) is
   begin
      Tell (Object.Number);
   end Finalize;
   A : Ticket;
   B : Ticket;
   C : Ticket_Link;
begin
   A := B;
   C := new Ticket;
   C.Number := 1;
end Main;
