with Ada.Finalization; with Ada.Text_IO; with Ada.Unchecked_Deallocation;
procedure Main is
   type Cell is record Value : Integer := 9; end record;
   type Link is access Cell;
   procedure Free is new Ada.Unchecked_Deallocation (Cell, Link);
   type Count is new Ada.Finalization.Controlled with record Value : Integer := 3; end record;
   overriding procedure Adjust (Object : in out Count);
   type Pair is record Left : Count; Right : Count; end record;
   type Pairs is access Pair;
   procedure Free_Pair is new Ada.Unchecked_Deallocation (Pair, Pairs);
   type Box is new Ada.Finalization.Limited_Controlled with record Held : Link; Both : Pair; end record;
   overriding procedure Initialize (Object : in out Box);
   overriding procedure Finalize (Object : in out Box);
   procedure Up (N : in out Integer) is
   begin
      N := N + 1;
   end Up;
   overriding procedure Adjust (Object : in out Count) is
   begin
      Up (Object.Value);
   exception
      when Constraint_Error => Object.Value := 0;
   end Adjust;
   overriding procedure Initialize (Object : in out Box) is
   begin
      Object.Held := new Cell;
   end Initialize;
   overriding procedure Finalize (Object : in out Box) is
      Last : Pair := Object.Both;
   begin
      Ada.Text_IO.Put_Line (Integer'Image (Last.Left.Value));
      declare
         None : Pairs;
         Again : Pair := Last;
         Lost : Pair := None.all;
      begin
         Ada.Text_IO.Put_Line (Integer'Image (Again.Right.Value + Lost.Left.Value));
      end;
      Free (Object.Held);
   exception
      when Constraint_Error =>
         Free (Object.Held);
         Ada.Text_IO.Put_Line ("nothing to copy");
   end Finalize;
begin
   declare
      B : Box;
   begin
      Ada.Text_IO.Put_Line (Integer'Image (B.Held.Value));
   end;
end Main;
