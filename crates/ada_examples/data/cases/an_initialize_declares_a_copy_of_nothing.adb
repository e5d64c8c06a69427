with Ada.Finalization; with Ada.Text_IO; with Ada.Unchecked_Deallocation;
procedure Main is
   type Pair is record Low : Integer := 3; High : Integer := 8; end record;
   type Cell is record Ends : Pair; end record;
   type Link is access Cell;
   procedure Free is new Ada.Unchecked_Deallocation (Cell, Link);
   type Holder is new Ada.Finalization.Limited_Controlled with record Held : Link; Length : Integer := 0; end record;
   overriding procedure Initialize (Object : in out Holder);
   overriding procedure Finalize (Object : in out Holder);
   overriding procedure Initialize (Object : in out Holder) is
      Spare : Pair;
      Ends : Pair := Object.Held.Ends;
   begin
      Object.Length := Ends.High - Spare.Low;
   end Initialize;
   overriding procedure Finalize (Object : in out Holder) is
   begin
      Free (Object.Held);
   end Finalize;
begin
   declare
      H : Holder;
   begin
      Ada.Text_IO.Put_Line (Integer'Image (H.Length));
   end;
exception
   when Constraint_Error =>
      Ada.Text_IO.Put_Line ("nothing to copy");
end Main;
