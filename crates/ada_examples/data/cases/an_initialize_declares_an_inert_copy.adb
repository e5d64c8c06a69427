with Ada.Finalization; with Ada.Text_IO;
procedure Main is
   type Tally is new Ada.Finalization.Controlled with record Count : Integer := 1; end record;
   type Board is new Ada.Finalization.Limited_Controlled with record L : Tally; R : Tally; end record;
   overriding procedure Initialize (Object : in out Board);
   overriding procedure Initialize (Object : in out Board) is
      Before : Tally := Object.L;
   begin
      Before.Count := Before.Count + 4;
      Object.R := Before;
      declare
         After : Tally := Object.R;
      begin
         Before := After;
         Ada.Text_IO.Put_Line (Integer'Image (Before.Count));
      end;
   end Initialize;
   B : Board;
begin
   Ada.Text_IO.Put_Line (Integer'Image (B.L.Count));
   Ada.Text_IO.Put_Line (Integer'Image (B.R.Count));
end Main;
