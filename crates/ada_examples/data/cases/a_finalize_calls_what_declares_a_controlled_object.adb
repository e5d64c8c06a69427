with Ada.Finalization; with Ada.Text_IO; with Ada.Unchecked_Deallocation;
procedure Main is
   type Cell is record Value : Integer := 7; end record;
   type Link is access Cell;
   type Gate is new Ada.Finalization.Limited_Controlled with null record;
   type Holder is new Ada.Finalization.Limited_Controlled with record Held : Link; end record;
   overriding procedure Finalize (Object : in out Gate);
   overriding procedure Finalize (Object : in out Holder);
   procedure Free is new Ada.Unchecked_Deallocation (Cell, Link);
   overriding procedure Finalize (Object : in out Gate) is
   begin
      Ada.Text_IO.Put_Line ("a gate");
   end Finalize;
   procedure Drop (L : in out Link) is
      G : Gate;
   begin
      Free (L);
   end Drop;
   overriding procedure Finalize (Object : in out Holder) is
      Mine : Link;
   begin
      Mine := Object.Held;
      Object.Held := null;
      Drop (Mine);
   end Finalize;
   H : Holder;
begin
   H.Held := new Cell;
   Ada.Text_IO.Put_Line ("never");
end Main;
