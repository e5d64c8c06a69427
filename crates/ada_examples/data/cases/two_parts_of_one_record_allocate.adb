with Ada.Finalization; with Ada.Text_IO; with Ada.Unchecked_Deallocation; with Run_Input;
procedure Main is
   type Cell is record Value : Integer := 0; end record;
   type Link is access Cell;
   type Holder is new Ada.Finalization.Limited_Controlled with record Held : Link; end record;
   overriding procedure Initialize (Object : in out Holder);
   overriding procedure Finalize (Object : in out Holder);
   type Pair is record Mark : Integer := 5; Left : Holder; Right : Holder; end record;
   procedure Free is new Ada.Unchecked_Deallocation (Cell, Link);
   overriding procedure Initialize (Object : in out Holder) is
   begin
      Object.Held := new Cell;
      Run_Input.Get (Object.Held.Value);
      Ada.Text_IO.Put_Line ("initialize");
   exception
      when others => Ada.Text_IO.Put_Line ("not reached");
   end Initialize;
   overriding procedure Finalize (Object : in out Holder) is
   begin
      Ada.Text_IO.Put_Line (Integer'Image (Object.Held.Value));
      Free (Object.Held);
   exception
      when Constraint_Error => Ada.Text_IO.Put_Line ("moved");
   end Finalize;
begin
   declare
      P : Pair;
      Taken : Link;
   begin
      Ada.Text_IO.Put_Line (Integer'Image (P.Mark));
      Taken := P.Right.Held;
      P.Right.Held := null;
      Ada.Text_IO.Put_Line (Integer'Image (Taken.Value));
   end;
   Ada.Text_IO.Put_Line ("behind");
end Main;
