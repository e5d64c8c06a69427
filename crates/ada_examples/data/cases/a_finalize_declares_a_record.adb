with Ada.Finalization; with Ada.Text_IO; with Ada.Unchecked_Deallocation;
procedure Main is
   type Pair is record Low : Integer := 3; High : Integer := 8; end record;
   type Cell is record Value : Integer := 6; end record;
   type Link is access Cell;
   procedure Free is new Ada.Unchecked_Deallocation (Cell, Link);
   type Holder is new Ada.Finalization.Limited_Controlled with record Held : Link; end record;
   overriding procedure Initialize (Object : in out Holder);
   overriding procedure Finalize (Object : in out Holder);
   overriding procedure Initialize (Object : in out Holder) is
   begin
      Object.Held := new Cell;
   end Initialize;
   overriding procedure Finalize (Object : in out Holder) is
      Ends : Pair;
   begin
      Ends.Low := Ends.High;
      Ada.Text_IO.Put_Line (Integer'Image (Ends.Low));
      Free (Object.Held);
   end Finalize;
   H : Holder;
begin
   Ada.Text_IO.Put_Line (Integer'Image (H.Held.Value));
end Main;
