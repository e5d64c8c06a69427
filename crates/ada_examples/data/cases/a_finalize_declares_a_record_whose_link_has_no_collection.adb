with Ada.Finalization; with Ada.Text_IO;
procedure Main is
begin
   declare
      type Count;
      type Box is access Count;
      type Cell is record Value : Integer := 4; end record;
      type Link is access Cell;
      type Slot is record Place : Integer := 1; Named : Link; end record;
      type Count is new Ada.Finalization.Limited_Controlled with record Value : Integer := 2; end record;
      overriding procedure Finalize (Object : in out Count);
      overriding procedure Finalize (Object : in out Count) is
         Kept : Slot;
      begin
         if Kept.Named = null then
            Ada.Text_IO.Put_Line (Integer'Image (Object.Value));
         end if;
      exception
         when Constraint_Error => null;
      end Finalize;
      A : Box;
      B : Link;
   begin
      A := new Count;
      B := new Cell;
   end;
end Main;
