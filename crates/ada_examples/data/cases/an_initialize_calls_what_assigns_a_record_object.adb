with Ada.Finalization; with Ada.Text_IO;
procedure Main is
   type Tally is new Ada.Finalization.Controlled with record Count : Integer := 1; end record;
   type Board is new Ada.Finalization.Limited_Controlled with record Sum : Integer := 0; end record;
   overriding procedure Initialize (Object : in out Board);
   procedure Copy (Sum : in out Integer) is
      A : Tally;
      B : Tally;
   begin
      B.Count := 8;
      A := B;
      Sum := A.Count;
   end Copy;
   overriding procedure Initialize (Object : in out Board) is
   begin
      Copy (Object.Sum);
   end Initialize;
   B : Board;
begin
   Ada.Text_IO.Put_Line (Integer'Image (B.Sum));
end Main;
