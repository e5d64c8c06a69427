with Ada.Finalization; with Ada.Text_IO;
procedure Main is
   type Tally is new Ada.Finalization.Controlled with record Count : Integer := 1; end record;
   overriding procedure Finalize (Object : in out Tally);
   type Board is new Ada.Finalization.Limited_Controlled with record L : Tally; Sum : Integer := 0; end record;
   overriding procedure Initialize (Object : in out Board);
   overriding procedure Finalize (Object : in out Tally) is
   begin
      Ada.Text_IO.Put_Line (Integer'Image (Object.Count));
   end Finalize;
   overriding procedure Initialize (Object : in out Board) is
      First : Tally;
      Last : Tally;
   begin
      First.Count := 7;
      Last.Count := 8;
      Last := First;
      Object.Sum := Last.Count + 1;
      First := Object.L;
   end Initialize;
   B : Board;
begin
   Ada.Text_IO.Put_Line (Integer'Image (B.Sum));
end Main;
