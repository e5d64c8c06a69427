with Ada.Finalization; with Ada.Text_IO; with Ada.Unchecked_Deallocation; with Run_Input;
procedure Main is
   Negative : exception;
   type Cell is record Value : Integer := 7; end record;
   type Link is access Cell;
   type Holder is new Ada.Finalization.Limited_Controlled with record Held : Link; end record;
   type Pair is record First : Holder; Second : Holder; end record;
   overriding procedure Initialize (Object : in out Holder);
   overriding procedure Finalize (Object : in out Holder);
   procedure Free is new Ada.Unchecked_Deallocation (Cell, Link);
   procedure Read (L : in out Link) is
      N : Integer := 0;
   begin
      L := new Cell;
      Run_Input.Get (N);
      if N < 0 then
         raise Negative;
      end if;
      L.Value := N;
   end Read;
   procedure Drop (L : in out Link) is
   begin
      Ada.Text_IO.Put_Line (Integer'Image (L.Value));
      Free (L);
   exception
      when Constraint_Error => Ada.Text_IO.Put_Line ("null");
   end Drop;
   overriding procedure Initialize (Object : in out Holder) is
      Made : Link;
   begin
      Read (Made);
      Object.Held := Made;
   end Initialize;
   overriding procedure Finalize (Object : in out Holder) is
      Last : Link;
   begin
      Last := Object.Held;
      Object.Held := null;
      Drop (Last);
   end Finalize;
begin
   declare
      P : Pair;
   begin
      Ada.Text_IO.Put_Line ("never");
   end;
exception
   when Negative => Ada.Text_IO.Put_Line ("negative");
end Main;
