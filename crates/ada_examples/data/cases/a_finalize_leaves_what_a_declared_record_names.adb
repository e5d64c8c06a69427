with Ada.Finalization; with Ada.Text_IO; with Ada.Unchecked_Deallocation;
procedure Main is
   type Cell is record Value : Integer := 6; end record;
   type Link is access Cell;
   procedure Free is new Ada.Unchecked_Deallocation (Cell, Link);
   type Keeper is new Ada.Finalization.Limited_Controlled with record Named : Link; end record;
   overriding procedure Finalize (Object : in out Keeper);
   type Holder is new Ada.Finalization.Limited_Controlled with record Held : Link; end record;
   overriding procedure Finalize (Object : in out Holder);
   type Pair is record One : Holder; Two : Holder; end record;
   overriding procedure Finalize (Object : in out Holder) is
      Kept : Keeper;
   begin
      Kept.Named := Object.Held;
      Object.Held := null;
   end Finalize;
   overriding procedure Finalize (Object : in out Keeper) is
   begin
      if Object.Named /= null then
         Ada.Text_IO.Put_Line (Integer'Image (Object.Named.Value));
      end if;
      Free (Object.Named);
   exception
      when Constraint_Error => null;
   end Finalize;
   P : Pair;
begin
   P.One.Held := new Cell;
   P.One.Held.Value := 4;
   P.Two.Held := new Cell;
end Main;
