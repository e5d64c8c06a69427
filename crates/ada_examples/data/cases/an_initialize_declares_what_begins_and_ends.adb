with Ada.Finalization; with Ada.Text_IO; with Ada.Unchecked_Deallocation;
procedure Main is
   type Meter is new Ada.Finalization.Limited_Controlled with record Read : Integer := 1; end record;
   overriding procedure Initialize (Object : in out Meter);
   overriding procedure Finalize (Object : in out Meter);
   type Cell is record Value : Integer := 0; end record;
   type Link is access Cell;
   procedure Free is new Ada.Unchecked_Deallocation (Cell, Link);
   type Holder is new Ada.Finalization.Limited_Controlled with record Held : Link; end record;
   overriding procedure Initialize (Object : in out Holder);
   overriding procedure Finalize (Object : in out Holder);
   overriding procedure Initialize (Object : in out Meter) is
   begin
      Object.Read := Object.Read + 4;
      Ada.Text_IO.Put_Line ("begun");
   end Initialize;
   overriding procedure Finalize (Object : in out Meter) is
   begin
      Ada.Text_IO.Put_Line (Integer'Image (Object.Read));
   end Finalize;
   overriding procedure Initialize (Object : in out Holder) is
      First : Meter;
      Second : Meter;
   begin
      Second.Read := 9;
      Object.Held := new Cell'(Value => First.Read + Second.Read);
   end Initialize;
   overriding procedure Finalize (Object : in out Holder) is
   begin
      Free (Object.Held);
   end Finalize;
   H : Holder;
begin
   Ada.Text_IO.Put_Line (Integer'Image (H.Held.Value));
end Main;
