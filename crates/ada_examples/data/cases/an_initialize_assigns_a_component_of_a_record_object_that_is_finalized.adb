with Ada.Finalization; with Ada.Text_IO;
procedure Main is
   type Tally is new Ada.Finalization.Controlled with record Count : Integer := 1; end record;
   overriding procedure Finalize (Object : in out Tally);
   type Pair is record One : Tally; Two : Tally; end record;
   Full : exception;
   type Board is new Ada.Finalization.Limited_Controlled with record Sum : Integer := 0; end record;
   overriding procedure Initialize (Object : in out Board);
   overriding procedure Finalize (Object : in out Tally) is
   begin
      Ada.Text_IO.Put_Line (Integer'Image (Object.Count));
   end Finalize;
   overriding procedure Initialize (Object : in out Board) is
   begin
      declare
         P : Pair;
      begin
         P.One.Count := 2;
         P.Two.Count := 3;
         P.Two := P.One;
         Object.Sum := P.Two.Count;
         raise Full;
      end;
   exception
      when Full =>
         Object.Sum := Object.Sum + 10;
   end Initialize;
   B : Board;
begin
   Ada.Text_IO.Put_Line (Integer'Image (B.Sum));
end Main;
