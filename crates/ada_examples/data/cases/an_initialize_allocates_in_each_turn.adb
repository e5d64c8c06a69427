with Ada.Finalization; with Ada.Text_IO; with Ada.Unchecked_Deallocation; with Profile_Pools;
procedure Main is
   type Cell is record Value : Integer := 0; end record;
   Room : Profile_Pools.First_Fit_Pool (5);
   type Link is access Cell with Storage_Pool => Room;
   type Holder is new Ada.Finalization.Limited_Controlled with record Held : Link; end record;
   overriding procedure Initialize (Object : in out Holder);
   overriding procedure Finalize (Object : in out Holder);
   procedure Free is new Ada.Unchecked_Deallocation (Cell, Link);
   overriding procedure Initialize (Object : in out Holder) is
   begin
      Object.Held := new Cell;
   exception
      when Storage_Error => Ada.Text_IO.Put_Line ("no cell");
   end Initialize;
   overriding procedure Finalize (Object : in out Holder) is
   begin
      Free (Object.Held);
      Ada.Text_IO.Put_Line ("freed");
   end Finalize;
begin
   for Turn in 1 .. 3 loop
      declare
         H : Holder;
      begin
         H.Held.Value := Turn;
         Ada.Text_IO.Put_Line (Integer'Image (H.Held.Value));
         exit when Turn = 2;
      end;
      Ada.Text_IO.Put_Line ("next");
   end loop;
end Main;
