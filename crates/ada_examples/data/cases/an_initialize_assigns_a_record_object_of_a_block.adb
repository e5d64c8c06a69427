with Ada.Finalization; with Ada.Text_IO;
procedure Main is
   type Tally is new Ada.Finalization.Controlled with record Count : Integer := 1; end record;
   type Board is new Ada.Finalization.Limited_Controlled with record L : Tally; Sum : Integer := 0; end record;
   overriding procedure Initialize (Object : in out Board);
   overriding procedure Initialize (Object : in out Board) is
      Total : Tally;
   begin
      for I in 1 .. 3 loop
         declare
            Step : Tally;
         begin
            Step.Count := I;
            Step := Total;
            Step.Count := Step.Count + I;
            Total := Step;
         end;
      end loop;
      Object.L := Total;
      Object.Sum := Total.Count;
   end Initialize;
   B : Board;
begin
   Ada.Text_IO.Put_Line (Integer'Image (B.Sum));
   Ada.Text_IO.Put_Line (Integer'Image (B.L.Count));
end Main;
