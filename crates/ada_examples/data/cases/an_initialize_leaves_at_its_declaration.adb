with Ada.Finalization; with Ada.Text_IO; with Ada.Unchecked_Deallocation; with Profile_Pools;
procedure Main is
   type Cell is record Value : Integer := 7; end record;
   Room : Profile_Pools.First_Fit_Pool (5);
   type Link is access Cell with Storage_Pool => Room;
   type Holder is new Ada.Finalization.Limited_Controlled with record Held : Link; end record;
   overriding procedure Initialize (Object : in out Holder);
   overriding procedure Finalize (Object : in out Holder);
   type Pair is record Left : Holder; Right : Holder; end record;
   procedure Free is new Ada.Unchecked_Deallocation (Cell, Link);
   overriding procedure Initialize (Object : in out Holder) is
      Made : Link := new Cell;
   begin
      Object.Held := Made;
   exception
      when Storage_Error => Ada.Text_IO.Put_Line ("not here");
   end Initialize;
   overriding procedure Finalize (Object : in out Holder) is
   begin
      Free (Object.Held);
      Ada.Text_IO.Put_Line ("freed");
   end Finalize;
begin
   begin
      declare
         Both : Pair;
      begin
         Ada.Text_IO.Put_Line (Integer'Image (Both.Right.Held.Value));
      end;
   exception
      when Storage_Error => Ada.Text_IO.Put_Line ("no room for both");
   end;
   declare
      One : Holder;
   begin
      Ada.Text_IO.Put_Line (Integer'Image (One.Held.Value));
   end;
end Main;
