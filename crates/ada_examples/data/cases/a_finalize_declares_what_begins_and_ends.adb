with Ada.Finalization; with Ada.Text_IO; with Ada.Unchecked_Deallocation;
procedure Main is
   type Cell is record Value : Integer := 6; end record;
   type Link is access Cell;
   procedure Free is new Ada.Unchecked_Deallocation (Cell, Link);
   type Count is new Ada.Finalization.Limited_Controlled with record Value : Integer := 0; end record;
   type Pair is record Low : Count; High : Count; end record;
   type Holder is new Ada.Finalization.Limited_Controlled with record Held : Link; end record;
   overriding procedure Initialize (Object : in out Count);
   overriding procedure Finalize (Object : in out Count);
   overriding procedure Finalize (Object : in out Holder);
   overriding procedure Initialize (Object : in out Count) is
   begin
      Object.Value := 5;
   end Initialize;
   overriding procedure Finalize (Object : in out Count) is
   begin
      Ada.Text_IO.Put_Line (Integer'Image (Object.Value));
   end Finalize;
   overriding procedure Finalize (Object : in out Holder) is
      P : Pair;
   begin
      P.Low.Value := Object.Held.Value;
      for I in 1 .. 2 loop
         declare
            C : Count;
         begin
            C.Value := P.High.Value + I;
         end;
      end loop;
      Free (Object.Held);
      P.High.Value := 9;
   exception
      when Constraint_Error => null;
   end Finalize;
   H : Holder;
begin
   H.Held := new Cell;
end Main;
