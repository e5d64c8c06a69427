with Ada.Finalization; with Ada.Text_IO; with Ada.Unchecked_Deallocation; with Profile_Pools;
procedure Main is
   type Cell is record Value : Integer := 7; end record;
   Room : Profile_Pools.First_Fit_Pool (10);
   type Link is access Cell with Storage_Pool => Room;
   type Holder is new Ada.Finalization.Controlled with record Held : Link; end record;
   overriding procedure Initialize (Object : in out Holder);
   overriding procedure Finalize (Object : in out Holder);
   procedure Free is new Ada.Unchecked_Deallocation (Cell, Link);
   overriding procedure Initialize (Object : in out Holder) is
   begin
      Object.Held := new Cell;
      Ada.Text_IO.Put_Line ("a cell");
   exception
      when Storage_Error => Ada.Text_IO.Put_Line ("no room");
   end Initialize;
   overriding procedure Finalize (Object : in out Holder) is
   begin
      if Object.Held = null then
         Ada.Text_IO.Put_Line ("nothing to free");
      else
         Free (Object.Held);
         Ada.Text_IO.Put_Line ("freed");
      end if;
   end Finalize;
   First  : Holder;
   Second : Holder;
begin
   declare
      Third : Holder;
   begin
      Third.Held := First.Held;
      First.Held := null;
   end;
   declare
      Fourth : Holder;
   begin
      Ada.Text_IO.Put_Line ("in the second block");
   end;
end Main;
