with Ada.Finalization; with Ada.Text_IO;
procedure Main is
   type Mark is new Ada.Finalization.Controlled with record Count : Integer := 1; end record;
   overriding procedure Finalize (Object : in out Mark);
   type Tally is new Ada.Finalization.Controlled with record Count : Integer := 2; end record;
   overriding procedure Finalize (Object : in out Tally);
   type Pair is record One : Tally; Two : Tally; end record;
   type Board is new Ada.Finalization.Limited_Controlled with record L : Pair; end record;
   overriding procedure Finalize (Object : in out Board);
   overriding procedure Finalize (Object : in out Mark) is
   begin
      Ada.Text_IO.Put_Line (Integer'Image (Object.Count));
   end Finalize;
   overriding procedure Finalize (Object : in out Tally) is
      One : Mark;
      Two : Mark;
   begin
      One.Count := Object.Count;
      Two := One;
      Object.Count := 0;
   end Finalize;
   overriding procedure Finalize (Object : in out Board) is
      Last : Pair;
   begin
      Last.One := Object.L.Two;
      Last := Object.L;
      Last.Two.Count := 9;
   end Finalize;
begin
   declare
      B : Board;
   begin
      B.L.One.Count := 5;
      B.L.Two.Count := 6;
   end;
end Main;
