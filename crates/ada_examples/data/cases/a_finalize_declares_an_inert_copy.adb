with Ada.Finalization; with Ada.Text_IO;
procedure Main is
   type Tally is new Ada.Finalization.Controlled with record Count : Integer := 1; end record;
   type Pair is record Left : Tally; Right : Tally; end record;
   type Board is new Ada.Finalization.Limited_Controlled with record Both : Pair; end record;
   overriding procedure Finalize (Object : in out Board);
   overriding procedure Finalize (Object : in out Board) is
      Last : Pair := Object.Both;
   begin
      Object.Both.Left.Count := 0;
      Ada.Text_IO.Put_Line (Integer'Image (Last.Left.Count));
      Ada.Text_IO.Put_Line (Integer'Image (Last.Right.Count));
   end Finalize;
   B : Board;
begin
   B.Both.Left.Count := 6;
end Main;
