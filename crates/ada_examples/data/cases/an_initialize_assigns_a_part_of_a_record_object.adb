with Ada.Finalization; with Ada.Text_IO;
procedure Main is
   type Tally is new Ada.Finalization.Controlled with record Count : Integer := 1; end record;
   type Pair is record Left : Tally; Right : Tally; end record;
   type Board is new Ada.Finalization.Limited_Controlled with record Both : Pair; end record;
   overriding procedure Initialize (Object : in out Board);
   overriding procedure Initialize (Object : in out Board) is
      Own : Pair;
      One : Tally;
   begin
      One.Count := 3;
      Own.Right := One;
      Own.Left := Own.Right;
      Own.Left.Count := 5;
      Object.Both := Own;
      Own := Object.Both;
      Ada.Text_IO.Put_Line (Integer'Image (Own.Left.Count));
      Ada.Text_IO.Put_Line (Integer'Image (Own.Right.Count));
   end Initialize;
   B : Board;
begin
   Ada.Text_IO.Put_Line (Integer'Image (B.Both.Left.Count));
   Ada.Text_IO.Put_Line (Integer'Image (B.Both.Right.Count));
end Main;
