with Ada.Finalization; with Ada.Text_IO;
procedure Main is
   type Tally is new Ada.Finalization.Controlled with record Count : Integer := 1; end record;
   type Board is new Ada.Finalization.Limited_Controlled with record Left : Tally; Right : Tally; end record;
   overriding procedure Initialize (Object : in out Board);
   overriding procedure Initialize (Object : in out Board) is
      Before : Tally;
   begin
      Before.Count := 7;
      Object.Left := Before;
      Object.Right := Object.Left;
      Object.Left.Count := 5;
   end Initialize;
   B : Board;
begin
   Ada.Text_IO.Put_Line (Integer'Image (B.Left.Count));
   Ada.Text_IO.Put_Line (Integer'Image (B.Right.Count));
end Main;
