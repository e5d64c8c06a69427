with Ada.Finalization; with Ada.Text_IO; with Ada.Unchecked_Deallocation;
procedure Main is
   type Cell is record Value : Integer := 0; end record;
   type Link is access Cell;
   procedure Free is new Ada.Unchecked_Deallocation (Cell, Link);
   type Tally is new Ada.Finalization.Controlled with record Count : Integer := 3; end record;
   overriding procedure Initialize (Object : in out Tally);
   overriding procedure Finalize (Object : in out Tally);
   type Pair is record First : Tally; Second : Tally; end record;
   type Board is new Ada.Finalization.Limited_Controlled with record Own : Pair; Held : Link; end record;
   overriding procedure Initialize (Object : in out Board);
   overriding procedure Finalize (Object : in out Board);
   overriding procedure Initialize (Object : in out Tally) is
   begin
      Object.Count := 4;
   end Initialize;
   overriding procedure Finalize (Object : in out Tally) is
      Last : Link;
   begin
      Ada.Text_IO.Put_Line (Integer'Image (Object.Count));
      Free (Last);
   end Finalize;
   overriding procedure Initialize (Object : in out Board) is
   begin
      Object.Held := new Cell;
   end Initialize;
   overriding procedure Finalize (Object : in out Board) is
   begin
      declare
         Twin : Pair := Object.Own;
      begin
         Twin.Second.Count := 9;
         Free (Object.Held);
      end;
   end Finalize;
   B : Board;
begin
   B.Own.First.Count := 5;
end Main;
