with Ada.Finalization; with Ada.Text_IO;
procedure Main is
   type Tally is new Ada.Finalization.Controlled with record Count : Integer := 1; end record;
   overriding procedure Finalize (Object : in out Tally);
   type Board is new Ada.Finalization.Limited_Controlled with record L : Tally; end record;
   overriding procedure Initialize (Object : in out Board);
   overriding procedure Finalize (Object : in out Tally) is
   begin
      Ada.Text_IO.Put_Line (Integer'Image (Object.Count));
   end Finalize;
   overriding procedure Initialize (Object : in out Board) is
      B : Tally;
   begin
      B.Count := 7;
      Object.L := B;
   end Initialize;
   B : Board;
begin
   Ada.Text_IO.Put_Line (Integer'Image (B.L.Count));
end Main;
