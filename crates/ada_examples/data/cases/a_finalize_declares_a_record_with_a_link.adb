with Ada.Finalization; with Ada.Text_IO; with Ada.Unchecked_Deallocation;
procedure Main is
   type Cell is record Value : Integer := 6; end record;
   type Link is access Cell;
   procedure Free is new Ada.Unchecked_Deallocation (Cell, Link);
   type Slot is record Place : Integer := 0; Named : Link; end record;
   type Holder is new Ada.Finalization.Limited_Controlled with record Held : Link; end record;
   overriding procedure Finalize (Object : in out Holder);
   overriding procedure Finalize (Object : in out Holder) is
      Kept : Slot;
   begin
      Kept.Named := Object.Held;
      Object.Held := null;
      if Kept.Named /= null then
         Ada.Text_IO.Put_Line (Integer'Image (Kept.Named.Value));
         Free (Kept.Named);
      end if;
   exception
      when Constraint_Error => null;
   end Finalize;
   H : Holder;
   Other : Holder;
begin
   H.Held := new Cell;
   H.Held.Value := 9;
end Main;
