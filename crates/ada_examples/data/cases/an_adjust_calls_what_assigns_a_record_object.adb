with Ada.Finalization; with Ada.Text_IO;
procedure Main is
   type Tally is new Ada.Finalization.Controlled with record Count : Integer := 1; end record;
   overriding procedure Adjust (Object : in out Tally);
   type Board is new Ada.Finalization.Controlled with record Sum : Integer := 0; end record;
   overriding procedure Adjust (Object : in out Board);
   overriding procedure Adjust (Object : in out Tally) is
   begin
      Object.Count := 6;
      Ada.Text_IO.Put_Line ("adjusted");
   end Adjust;
   procedure Copy (Sum : in out Integer) is
      A : Tally;
      B : Tally;
   begin
      B.Count := Sum;
      A := B;
      Sum := A.Count;
   end Copy;
   overriding procedure Adjust (Object : in out Board) is
   begin
      Copy (Object.Sum);
   end Adjust;
   B : Board;
   C : Board;
begin
   B.Sum := 4;
   C := B;
   Ada.Text_IO.Put_Line (Integer'Image (C.Sum));
end Main;
