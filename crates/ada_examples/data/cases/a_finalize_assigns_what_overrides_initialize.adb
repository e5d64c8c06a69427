with Ada.Finalization; with Ada.Text_IO; with Ada.Unchecked_Deallocation;
procedure Main is
   type Cell is record Value : Integer := 0; end record;
   type Link is access Cell;
   procedure Free is new Ada.Unchecked_Deallocation (Cell, Link);
   type Tally is new Ada.Finalization.Controlled with record Count : Integer := 1; end record;
   overriding procedure Initialize (Object : in out Tally);
   type Board is new Ada.Finalization.Limited_Controlled with record L : Tally; Held : Link; end record;
   overriding procedure Finalize (Object : in out Board);
   overriding procedure Initialize (Object : in out Tally) is
   begin
      Object.Count := 2;
   end Initialize;
   overriding procedure Finalize (Object : in out Board) is
      B : Tally;
   begin
      Object.L.Count := 7;
      B := Object.L;
      Ada.Text_IO.Put_Line (Integer'Image (B.Count));
      Free (Object.Held);
   end Finalize;
   B : Board;
begin
   B.Held := new Cell;
end Main;
