with Ada.Finalization; with Ada.Text_IO;
procedure Main is
   Too_Many : exception;
   type Tally is new Ada.Finalization.Controlled with record Count : Integer := 1; end record;
   overriding procedure Finalize (Object : in out Tally);
   type Board is new Ada.Finalization.Limited_Controlled with record Sum : Integer := 0; end record;
   overriding procedure Initialize (Object : in out Board);
   overriding procedure Finalize (Object : in out Tally) is
   begin
      Ada.Text_IO.Put_Line (Integer'Image (Object.Count));
   end Finalize;
   procedure Copy (Limit : in Integer; Sum : in out Integer) is
   begin
      declare
         A : Tally;
         B : Tally;
      begin
         B.Count := 8;
         A := B;
         if A.Count > Limit then
            raise Too_Many;
         end if;
         Sum := A.Count;
      end;
   end Copy;
   overriding procedure Initialize (Object : in out Board) is
   begin
      Copy (9, Object.Sum);
      Copy (7, Object.Sum);
   exception
      when Too_Many =>
         Object.Sum := Object.Sum + 1;
   end Initialize;
   B : Board;
begin
   Ada.Text_IO.Put_Line (Integer'Image (B.Sum));
end Main;
