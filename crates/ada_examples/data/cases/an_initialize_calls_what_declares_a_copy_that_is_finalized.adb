with Ada.Finalization; with Ada.Text_IO; with Ada.Unchecked_Deallocation;
procedure Main is
   type Cell is record Value : Integer := 0; end record;
   type Link is access Cell;
   procedure Free is new Ada.Unchecked_Deallocation (Cell, Link);
   type Tally is new Ada.Finalization.Controlled with record Count : Integer := 3; end record;
   overriding procedure Finalize (Object : in out Tally);
   type Board is new Ada.Finalization.Limited_Controlled with record Own : Tally; Held : Link; end record;
   overriding procedure Initialize (Object : in out Board);
   overriding procedure Finalize (Object : in out Board);
   overriding procedure Finalize (Object : in out Tally) is
   begin
      Ada.Text_IO.Put_Line (Integer'Image (Object.Count));
   end Finalize;
   procedure Look (From : in out Tally; To : in out Integer) is
      Twin : Tally := From;
   begin
      Twin.Count := Twin.Count + 1;
      To := Twin.Count;
   end Look;
   overriding procedure Initialize (Object : in out Board) is
      Seen : Integer := 0;
   begin
      Look (Object.Own, Seen);
      Object.Held := new Cell'(Value => Seen);
   end Initialize;
   overriding procedure Finalize (Object : in out Board) is
   begin
      Free (Object.Held);
   end Finalize;
   B : Board;
begin
   Ada.Text_IO.Put_Line (Integer'Image (B.Held.Value));
end Main;
