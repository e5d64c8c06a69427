with Ada.Finalization; with Ada.Text_IO; with Ada.Unchecked_Deallocation;
procedure Main is
   type Cell is record Value : Integer := 7; end record;
   type Link is access Cell;
   type Holder is new Ada.Finalization.Limited_Controlled with record Held : Link; end record;
   overriding procedure Finalize (Object : in out Holder);
   procedure Free is new Ada.Unchecked_Deallocation (Cell, Link);
   procedure Renew (L : in out Link) is
      Fresh : Link := new Cell;
   begin
      Free (L);
      L := Fresh;
   end Renew;
   overriding procedure Finalize (Object : in out Holder) is
      Mine : Link;
   begin
      Mine := Object.Held;
      Object.Held := null;
      Renew (Mine);
      Free (Mine);
   exception
      when Storage_Error => null;
   end Finalize;
   H : Holder;
begin
   H.Held := new Cell;
end Main;
