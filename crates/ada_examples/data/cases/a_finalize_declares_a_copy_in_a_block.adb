with Ada.Finalization; with Ada.Text_IO; with Ada.Unchecked_Deallocation;
procedure Main is
   type Pair is record Low : Integer := 3; High : Integer := 8; end record;
   type Cell is record Ends : Pair; Value : Integer := 6; end record;
   type Link is access Cell;
   procedure Free is new Ada.Unchecked_Deallocation (Cell, Link);
   type Holder is new Ada.Finalization.Limited_Controlled with record Held : Link; end record;
   overriding procedure Finalize (Object : in out Holder);
   overriding procedure Finalize (Object : in out Holder) is
   begin
      declare
         Last : Pair := Object.Held.Ends;
      begin
         Ada.Text_IO.Put_Line (Integer'Image (Last.Low));
      end;
      Free (Object.Held);
   exception
      when Constraint_Error =>
         Ada.Text_IO.Put_Line ("nothing to copy");
   end Finalize;
   H : Holder;
   Other : Holder;
begin
   H.Held := new Cell;
   H.Held.Ends.Low := 9;
end Main;
