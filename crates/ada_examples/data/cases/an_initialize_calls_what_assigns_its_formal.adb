with Ada.Finalization; with Ada.Text_IO;
procedure Main is
   type Tally is new Ada.Finalization.Controlled with record Count : Integer := 1; end record;
   type Board is new Ada.Finalization.Limited_Controlled with record Own : Tally; end record;
   overriding procedure Initialize (Object : in out Board);
   procedure Copy (Object : in out Tally) is
      A : Tally;
   begin
      A.Count := 8;
      Object := A;
   end Copy;
   overriding procedure Initialize (Object : in out Board) is
   begin
      Copy (Object.Own);
   end Initialize;
   B : Board;
begin
   Ada.Text_IO.Put_Line (Integer'Image (B.Own.Count));
end Main;
