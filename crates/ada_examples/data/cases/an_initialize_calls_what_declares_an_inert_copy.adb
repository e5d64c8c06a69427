with Ada.Finalization; with Ada.Text_IO;
procedure Main is
   type Tally is new Ada.Finalization.Controlled with record Count : Integer := 1; end record;
   type Board is new Ada.Finalization.Limited_Controlled with record L : Tally; Sum : Integer := 0; end record;
   overriding procedure Initialize (Object : in out Board);
   procedure Add (Sum : in out Integer; T : in Tally) is
      Own : Tally := T;
   begin
      Own.Count := Own.Count + 1;
      Sum := Sum + Own.Count;
   end Add;
   overriding procedure Initialize (Object : in out Board) is
      Total : Integer := 0;
   begin
      Add (Total, Object.L);
      Add (Total, Object.L);
      Object.Sum := Total;
   end Initialize;
   B : Board;
begin
   Ada.Text_IO.Put_Line (Integer'Image (B.Sum));
   Ada.Text_IO.Put_Line (Integer'Image (B.L.Count));
end Main;
