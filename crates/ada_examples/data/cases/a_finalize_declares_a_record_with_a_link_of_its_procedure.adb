with Ada.Finalization; with Ada.Text_IO; with Ada.Unchecked_Deallocation;
procedure Main is
   procedure Hold (Left : Integer) is
      type Cell is record Value : Integer := 4; end record;
      type Link is access Cell;
      type Slot is record Place : Integer := 0; Named : Link; end record;
      type Holder is new Ada.Finalization.Limited_Controlled with record Held : Link; end record;
      overriding procedure Finalize (Object : in out Holder);
      procedure Free is new Ada.Unchecked_Deallocation (Cell, Link);
      overriding procedure Finalize (Object : in out Holder) is
         Kept : Slot;
      begin
         Kept.Named := Object.Held;
         Object.Held := null;
         if Kept.Named /= null then
            Ada.Text_IO.Put_Line (Integer'Image (Kept.Named.Value));
         end if;
         Free (Kept.Named);
      exception
         when Constraint_Error => null;
      end Finalize;
      H : Holder;
   begin
      H.Held := new Cell'(Value => Left);
   end Hold;
begin
   Hold (3);
   Hold (2);
end Main;
