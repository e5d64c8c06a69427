with Ada.Finalization; with Ada.Text_IO;
procedure Main is
   Too_Early : exception;
   type Tally is new Ada.Finalization.Controlled with record Count : Integer := 1; end record;
   type Board is new Ada.Finalization.Limited_Controlled with record L : Tally; end record;
   overriding procedure Initialize (Object : in out Board);
   overriding procedure Initialize (Object : in out Board) is
      Kept : Tally;
   begin
      Object.L.Count := 4;
      Kept := Object.L;
      Ada.Text_IO.Put_Line (Integer'Image (Kept.Count));
      raise Too_Early;
   end Initialize;
begin
   declare
      B : Board;
   begin
      Ada.Text_IO.Put_Line ("never");
   end;
exception
   when Too_Early => Ada.Text_IO.Put_Line ("too early");
end Main;
