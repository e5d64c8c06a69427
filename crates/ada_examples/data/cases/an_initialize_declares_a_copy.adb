with Ada.Finalization; with Ada.Text_IO;
procedure Main is
   type Pair is record Low : Integer := 3; High : Integer := 8; end record;
   type Span is new Ada.Finalization.Limited_Controlled with record Ends : Pair; Length : Integer := 0; end record;
   overriding procedure Initialize (Object : in out Span);
   overriding procedure Initialize (Object : in out Span) is
      Before : Pair := Object.Ends;
   begin
      Object.Ends.Low := 5;
      Object.Length := Before.High - Before.Low;
   end Initialize;
   S : Span;
begin
   Ada.Text_IO.Put_Line (Integer'Image (S.Ends.Low));
   Ada.Text_IO.Put_Line (Integer'Image (S.Length));
end Main;
