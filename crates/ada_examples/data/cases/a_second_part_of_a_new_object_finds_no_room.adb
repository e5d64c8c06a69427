with Ada.Finalization; with Ada.Text_IO; with Ada.Unchecked_Deallocation; with Profile_Pools;
procedure Main is
   type Cell is record Value : Integer := 7; end record;
   Room : Profile_Pools.First_Fit_Pool (5);
   type Link is access Cell with Storage_Pool => Room;
   procedure Free is new Ada.Unchecked_Deallocation (Cell, Link);
   type Holder is new Ada.Finalization.Limited_Controlled with record Held : Link; end record;
   overriding procedure Initialize (Object : in out Holder);
   overriding procedure Finalize (Object : in out Holder);
   type Pair is record Left : Holder; Right : Holder; end record;
   type Pair_Link is access Pair;
   type Holder_Link is access Holder;
   overriding procedure Initialize (Object : in out Holder) is
   begin
      Object.Held := new Cell;
      Ada.Text_IO.Put_Line ("a cell");
   end Initialize;
   overriding procedure Finalize (Object : in out Holder) is
   begin
      Free (Object.Held);
      Ada.Text_IO.Put_Line ("freed");
   end Finalize;
   Both : Pair_Link;
   Alone : Holder_Link;
begin
   begin
      Both := new Pair;
   exception
      when Storage_Error => Ada.Text_IO.Put_Line ("no room for two");
   end;
   Alone := new Holder;
   if Both = null then
      Ada.Text_IO.Put_Line (Integer'Image (Alone.Held.Value));
   end if;
end Main;
