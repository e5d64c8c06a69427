with Ada.Finalization; with Ada.Text_IO; with Ada.Unchecked_Deallocation; with Profile_Pools;
procedure Main is
   type Cell is record Value : Integer := 7; end record;
   Room : Profile_Pools.First_Fit_Pool (5);
   type Link is access Cell with Storage_Pool => Room;
   type Holder is new Ada.Finalization.Controlled with record Held : Link; end record;
   type Pair is record Left : Holder; Right : Holder; end record;
   overriding procedure Initialize (Object : in out Holder);
   overriding procedure Finalize (Object : in out Holder);
   procedure Free is new Ada.Unchecked_Deallocation (Cell, Link);
   overriding procedure Initialize (Object : in out Holder) is
   begin
      Object.Held := new Cell;
      Ada.Text_IO.Put_Line ("a cell");
   end Initialize;
   overriding procedure Finalize (Object : in out Holder) is
   begin
      Free (Object.Held);
      Ada.Text_IO.Put_Line ("freed");
   end Finalize;
begin
   begin
      declare
         P : Pair;
      begin
         Ada.Text_IO.Put_Line ("not reached");
      end;
   exception
      when Storage_Error => Ada.Text_IO.Put_Line ("no room for a pair");
   end;
   declare
      H : Holder;
   begin
      Ada.Text_IO.Put_Line (Integer'Image (H.Held.Value));
   end;
end Main;
