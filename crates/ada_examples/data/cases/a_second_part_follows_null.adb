with Ada.Finalization; with Ada.Text_IO; with Ada.Unchecked_Deallocation;
procedure Main is
   type Cell is record Value : Integer := 7; end record;
   type Link is access Cell;
   type Holder is new Ada.Finalization.Limited_Controlled with record Held : Link; end record;
   overriding procedure Initialize (Object : in out Holder);
   overriding procedure Finalize (Object : in out Holder);
   type Reader is new Ada.Finalization.Limited_Controlled with record Read : Link; Last : Integer := 0; end record;
   overriding procedure Initialize (Object : in out Reader);
   overriding procedure Finalize (Object : in out Reader);
   type Pair is record Left : Holder; Right : Reader; end record;
   procedure Free is new Ada.Unchecked_Deallocation (Cell, Link);
   overriding procedure Initialize (Object : in out Holder) is
   begin
      Object.Held := new Cell;
      Ada.Text_IO.Put_Line ("a cell");
   end Initialize;
   overriding procedure Finalize (Object : in out Holder) is
   begin
      if Object.Held /= null then
         Ada.Text_IO.Put_Line ("it is freed");
      end if;
      Free (Object.Held);
   end Finalize;
   overriding procedure Initialize (Object : in out Reader) is
   begin
      Ada.Text_IO.Put_Line ("nothing to read");
      Object.Last := Object.Read.Value;
   end Initialize;
   overriding procedure Finalize (Object : in out Reader) is
   begin
      Ada.Text_IO.Put_Line ("never");
      Free (Object.Read);
   end Finalize;
begin
   declare
      Both : Pair;
   begin
      Ada.Text_IO.Put_Line ("never");
   end;
exception
   when Constraint_Error => Ada.Text_IO.Put_Line ("no record");
end Main;
