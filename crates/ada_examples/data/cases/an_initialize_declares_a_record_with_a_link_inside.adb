with Ada.Finalization; with Ada.Text_IO; with Ada.Unchecked_Deallocation;
procedure Main is
   type Cell is record Value : Integer := 6; end record;
   type Link is access Cell;
   procedure Free is new Ada.Unchecked_Deallocation (Cell, Link);
   type Slot is record Place : Integer := 0; Named : Link; end record;
   type Shelf is record Low : Slot; High : Slot; end record;
   type Holder is new Ada.Finalization.Limited_Controlled with record Held : Link; Size : Integer := 0; end record;
   overriding procedure Initialize (Object : in out Holder);
   overriding procedure Finalize (Object : in out Holder);
   overriding procedure Initialize (Object : in out Holder) is
      Kept : Shelf;
   begin
      Kept.High.Named := new Cell;
      Kept.Low.Named := new Cell;
      Kept.Low.Named.Value := 7;
      Object.Size := Kept.High.Named.Value + Kept.Low.Named.Value;
      Free (Kept.High.Named);
      Object.Held := Kept.Low.Named;
      Kept.Low.Named := null;
   end Initialize;
   overriding procedure Finalize (Object : in out Holder) is
   begin
      Free (Object.Held);
   end Finalize;
   H : Holder;
begin
   Ada.Text_IO.Put_Line (Integer'Image (H.Size));
   Ada.Text_IO.Put_Line (Integer'Image (H.Held.Value));
end Main;
