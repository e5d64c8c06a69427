with Ada.Finalization; with Ada.Text_IO; with Ada.Unchecked_Deallocation; with Run_Input;
procedure Main is
   Negative : exception;
   type Cell is record Value : Integer := 0; end record;
   type Link is access Cell;
   procedure Free is new Ada.Unchecked_Deallocation (Cell, Link);
   type Holder is new Ada.Finalization.Limited_Controlled with record Held : Link; end record;
   overriding procedure Initialize (Object : in out Holder);
   overriding procedure Finalize (Object : in out Holder);
   type Pair is record Left : Holder; Right : Holder; end record;
   type Pair_Link is access Pair;
   procedure Free_Pair is new Ada.Unchecked_Deallocation (Pair, Pair_Link);
   overriding procedure Initialize (Object : in out Holder) is
   begin
      Object.Held := new Cell;
      Run_Input.Get (Object.Held.Value);
      if Object.Held.Value < 0 then
         raise Negative;
      end if;
   end Initialize;
   overriding procedure Finalize (Object : in out Holder) is
   begin
      if Object.Held /= null then
         Ada.Text_IO.Put_Line (Integer'Image (Object.Held.Value));
      end if;
      Free (Object.Held);
   exception
      when Constraint_Error => null;
   end Finalize;
   Both : Pair_Link;
begin
   begin
      Both := new Pair;
   exception
      when Negative => Ada.Text_IO.Put_Line ("negative");
   end;
   Both := new Pair;
   Free_Pair (Both);
exception
   when Run_Input.End_Error => Ada.Text_IO.Put_Line ("no number");
end Main;
