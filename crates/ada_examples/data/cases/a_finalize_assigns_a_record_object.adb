with Ada.Finalization; with Ada.Text_IO;
procedure Main is
   type Tally is new Ada.Finalization.Controlled with record Count : Integer := 1; end record;
   type Board is new Ada.Finalization.Limited_Controlled with record L : Tally; end record;
   overriding procedure Finalize (Object : in out Board);
   overriding procedure Finalize (Object : in out Board) is
      Last : Tally;
   begin
      Last := Object.L;
      Object.L.Count := 0;
      Ada.Text_IO.Put_Line (Integer'Image (Last.Count));
      Ada.Text_IO.Put_Line (Integer'Image (Object.L.Count));
   end Finalize;
   B : Board;
begin
   B.L.Count := 6;
end Main;
