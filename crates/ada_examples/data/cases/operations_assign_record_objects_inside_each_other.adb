with Ada.Finalization; with Ada.Text_IO;
procedure Main is
   type Tally is new Ada.Finalization.Controlled with record Count : Integer := 1; end record;
   type Meter is new Ada.Finalization.Limited_Controlled with record L : Tally; end record;
   overriding procedure Initialize (Object : in out Meter);
   overriding procedure Finalize (Object : in out Meter);
   type Board is new Ada.Finalization.Limited_Controlled with record L : Tally; end record;
   overriding procedure Initialize (Object : in out Board);
   overriding procedure Initialize (Object : in out Meter) is
      First : Tally;
   begin
      First.Count := 2;
      Object.L := First;
      First := Object.L;
      Ada.Text_IO.Put_Line (Integer'Image (First.Count));
   end Initialize;
   overriding procedure Finalize (Object : in out Meter) is
      Last : Tally;
   begin
      Last := Object.L;
      Ada.Text_IO.Put_Line (Integer'Image (Last.Count));
   end Finalize;
   overriding procedure Initialize (Object : in out Board) is
      Own : Tally;
   begin
      Own.Count := 9;
      declare
         M : Meter;
      begin
         Own := M.L;
         M.L.Count := 7;
      end;
      Object.L := Own;
   end Initialize;
   B : Board;
begin
   Ada.Text_IO.Put_Line (Integer'Image (B.L.Count));
end Main;
