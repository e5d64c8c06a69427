with Ada.Finalization; with Ada.Text_IO; with Ada.Unchecked_Deallocation;
procedure Main is
   type Pair is record Low : Integer := 3; High : Integer := 8; end record;
   type Frame is record Ends : Pair; Wide : Boolean := False; end record;
   type Cell is record Value : Integer := 6; Within : Frame; end record;
   type Link is access Cell;
   procedure Free is new Ada.Unchecked_Deallocation (Cell, Link);
   type Holder is new Ada.Finalization.Limited_Controlled with record Held : Link; end record;
   overriding procedure Initialize (Object : in out Holder);
   overriding procedure Finalize (Object : in out Holder);
   overriding procedure Initialize (Object : in out Holder) is
      Ends : Pair := Pair'(Low => 4, High => 11);
      Kept : Frame := Frame'(Ends => Ends, Wide => Ends.High > 10);
   begin
      Object.Held := new Cell;
      Object.Held.Within := Kept;
      if Kept.Wide then
         Object.Held.Value := Kept.Ends.High - Ends.Low;
      end if;
   end Initialize;
   overriding procedure Finalize (Object : in out Holder) is
   begin
      Free (Object.Held);
   end Finalize;
   H : Holder;
begin
   Ada.Text_IO.Put_Line (Integer'Image (H.Held.Value));
   Ada.Text_IO.Put_Line (Integer'Image (H.Held.Within.Ends.Low));
end Main;
