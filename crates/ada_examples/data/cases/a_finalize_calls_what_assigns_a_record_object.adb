with Ada.Finalization; with Ada.Text_IO;
procedure Main is
   type Tally is new Ada.Finalization.Controlled with record Count : Integer := 1; end record;
   overriding procedure Adjust (Object : in out Tally);
   overriding procedure Finalize (Object : in out Tally);
   type Board is new Ada.Finalization.Limited_Controlled with record Sum : Integer := 0; end record;
   overriding procedure Finalize (Object : in out Board);
   overriding procedure Adjust (Object : in out Tally) is
   begin
      Object.Count := 6;
      Ada.Text_IO.Put_Line ("adjusted");
   end Adjust;
   overriding procedure Finalize (Object : in out Tally) is
   begin
      Ada.Text_IO.Put_Line (Integer'Image (Object.Count));
   end Finalize;
   procedure Count_Up is
      A : Tally;
      B : Tally;
   begin
      A.Count := 5;
      B.Count := 8;
      A := B;
   end Count_Up;
   overriding procedure Finalize (Object : in out Board) is
   begin
      Count_Up;
      Ada.Text_IO.Put_Line ("ended");
   end Finalize;
   B : Board;
begin
   Count_Up;
   Ada.Text_IO.Put_Line (Integer'Image (B.Sum));
end Main;
