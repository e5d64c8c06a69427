with Ada.Finalization; with Ada.Text_IO; with Ada.Unchecked_Deallocation;
procedure Main is
   type Pair is record Low : Integer := 3; High : Integer := 8; end record;
   type Cell is record Value : Integer := 6; end record;
   type Link is access Cell;
   procedure Free is new Ada.Unchecked_Deallocation (Cell, Link);
   type Holder is new Ada.Finalization.Limited_Controlled with record Held : Link; Size : Integer := 2; end record;
   overriding procedure Finalize (Object : in out Holder);
   overriding procedure Finalize (Object : in out Holder) is
      Ends : Pair := Pair'(Low => Object.Size, High => 7);
   begin
      Free (Object.Held);
      Ada.Text_IO.Put_Line (Integer'Image (Ends.Low));
      Ada.Text_IO.Put_Line (Integer'Image (Ends.High));
   end Finalize;
   H : Holder;
   Other : Holder;
begin
   H.Held := new Cell;
   Other.Size := 5;
end Main;
