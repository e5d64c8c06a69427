with Ada.Finalization; with Ada.Text_IO; with Ada.Unchecked_Deallocation;
procedure Main is
   type Pair is record Low : Integer := 3; High : Integer := 8; end record;
   type Cell is record Ends : Pair; end record;
   type Link is access Cell;
   procedure Free is new Ada.Unchecked_Deallocation (Cell, Link);
   type Holder is new Ada.Finalization.Limited_Controlled with record Held : Link; Length : Integer := 0; end record;
   overriding procedure Initialize (Object : in out Holder);
   overriding procedure Finalize (Object : in out Holder);
   procedure Measure (Ends : in Pair; Length : in out Integer) is
      Copy : Pair := Ends;
      Turned : Pair := Pair'(Low => Copy.High, High => Copy.Low);
   begin
      Length := Turned.Low - Turned.High;
   end Measure;
   overriding procedure Initialize (Object : in out Holder) is
      Length : Integer := 0;
   begin
      Object.Held := new Cell;
      Object.Held.Ends.High := 12;
      Measure (Object.Held.Ends, Length);
      Object.Length := Length;
   end Initialize;
   overriding procedure Finalize (Object : in out Holder) is
   begin
      Free (Object.Held);
   end Finalize;
   H : Holder;
begin
   Ada.Text_IO.Put_Line (Integer'Image (H.Length));
end Main;
