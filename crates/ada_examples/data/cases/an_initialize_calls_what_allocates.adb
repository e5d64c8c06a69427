with Ada.Finalization; with Ada.Text_IO; with Ada.Unchecked_Deallocation; with Profile_Pools;
procedure Main is
   type Cell is record Value : Integer := 7; end record;
   Room : Profile_Pools.First_Fit_Pool (10);
   type Link is access Cell with Storage_Pool => Room;
   type Holder is new Ada.Finalization.Limited_Controlled with record Held : Link; end record;
   overriding procedure Initialize (Object : in out Holder);
   overriding procedure Finalize (Object : in out Holder);
   procedure Free is new Ada.Unchecked_Deallocation (Cell, Link);
   procedure Make (L : in out Link) is
   begin
      L := new Cell;
      Ada.Text_IO.Put_Line ("a cell");
   exception
      when Storage_Error => Ada.Text_IO.Put_Line ("no room");
   end Make;
   procedure Drop (L : in out Link) is
   begin
      if L /= null then
         Ada.Text_IO.Put_Line ("freed");
      end if;
      Free (L);
   end Drop;
   overriding procedure Initialize (Object : in out Holder) is
      Made : Link;
   begin
      Make (Made);
      Object.Held := Made;
   end Initialize;
   overriding procedure Finalize (Object : in out Holder) is
      Last : Link := null;
   begin
      Last := Object.Held;
      Object.Held := null;
      Drop (Last);
   end Finalize;
   First : Holder;
   Second : Holder;
begin
   declare
      Third : Holder;
   begin
      if Third.Held = null then
         Ada.Text_IO.Put_Line ("none");
      end if;
   end;
   Ada.Text_IO.Put_Line ("behind");
end Main;
