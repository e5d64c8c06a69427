with Ada.Finalization; with Ada.Text_IO;
procedure Main is
   type Tally is new Ada.Finalization.Controlled with record Count : Integer := 1; end record;
   overriding procedure Adjust (Object : in out Tally);
   type Board is new Ada.Finalization.Limited_Controlled with record L : Tally; M : Tally; end record;
   overriding procedure Initialize (Object : in out Board);
   overriding procedure Adjust (Object : in out Tally) is
   begin
      Object.Count := 4;
   end Adjust;
   overriding procedure Initialize (Object : in out Board) is
   begin
      Object.L := Object.M;
   end Initialize;
   B : Board;
begin
   Ada.Text_IO.Put_Line (Integer'Image (B.L.Count));
end Main;
