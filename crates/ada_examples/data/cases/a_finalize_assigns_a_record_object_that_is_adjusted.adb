with Ada.Finalization; with Ada.Text_IO;
procedure Main is
   type Tally is new Ada.Finalization.Controlled with record Count : Integer := 1; end record;
   overriding procedure Adjust (Object : in out Tally);
   type Board is new Ada.Finalization.Limited_Controlled with record L : Tally; end record;
   overriding procedure Finalize (Object : in out Board);
   overriding procedure Adjust (Object : in out Tally) is
   begin
      Object.Count := 0;
   end Adjust;
   overriding procedure Finalize (Object : in out Board) is
      Last : Tally;
   begin
      Last := Object.L;
      Ada.Text_IO.Put_Line (Integer'Image (Last.Count));
   end Finalize;
   B : Board;
begin
   B.L.Count := 6;
end Main;
