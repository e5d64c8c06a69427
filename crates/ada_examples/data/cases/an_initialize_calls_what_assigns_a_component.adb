with Ada.Finalization; with Ada.Text_IO;
procedure Main is
   type Tally is new Ada.Finalization.Controlled with record Count : Integer := 1; end record;
   overriding procedure Finalize (Object : in out Tally);
   type Pair is record Left : Tally; Right : Tally; end record;
   type Board is new Ada.Finalization.Limited_Controlled with record Own : Tally; Sum : Integer := 0; end record;
   overriding procedure Initialize (Object : in out Board);
   overriding procedure Finalize (Object : in out Tally) is
   begin
      Ada.Text_IO.Put_Line (Integer'Image (Object.Count));
   end Finalize;
   procedure Copy (Count : in Integer; Sum : in out Integer) is
      Both : Pair;
      One : Tally;
   begin
      One.Count := Count;
      Both.Left := One;
      Both.Left.Count := 3;
      Both.Right := Both.Left;
      Both.Left := One;
      Sum := Both.Left.Count + Both.Right.Count;
   end Copy;
   procedure Fill (Count : in Integer; Sum : in out Integer) is
   begin
      Copy (Count, Sum);
      Sum := Sum + 100;
   end Fill;
   overriding procedure Initialize (Object : in out Board) is
   begin
      Object.Own.Count := 20;
      Fill (Object.Own.Count, Object.Sum);
   end Initialize;
   B : Board;
begin
   Ada.Text_IO.Put_Line (Integer'Image (B.Sum));
end Main;
