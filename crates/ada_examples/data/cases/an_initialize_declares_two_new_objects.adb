with Ada.Finalization; with Ada.Text_IO; with Ada.Unchecked_Deallocation; with Profile_Pools;
procedure Main is
   type Cell is record Value : Integer := 7; end record;
   Room : Profile_Pools.First_Fit_Pool (10);
   type Link is access Cell with Storage_Pool => Room;
   type Holder is new Ada.Finalization.Limited_Controlled with record Left : Link; Right : Link; end record;
   overriding procedure Initialize (Object : in out Holder);
   overriding procedure Finalize (Object : in out Holder);
   procedure Free is new Ada.Unchecked_Deallocation (Cell, Link);
   overriding procedure Initialize (Object : in out Holder) is
      First : Link := new Cell;
      Second : Link := new Cell'(Value => First.Value + 1);
   begin
      Object.Left := First;
      Object.Right := Second;
   end Initialize;
   overriding procedure Finalize (Object : in out Holder) is
   begin
      Free (Object.Right);
      Free (Object.Left);
      Ada.Text_IO.Put_Line ("freed");
   end Finalize;
   Alone : Link;
begin
   declare
      H : Holder;
   begin
      Ada.Text_IO.Put_Line (Integer'Image (H.Right.Value));
   end;
   Alone := new Cell;
   begin
      declare
         H : Holder;
      begin
         Ada.Text_IO.Put_Line (Integer'Image (H.Left.Value));
      end;
   exception
      when Storage_Error => Ada.Text_IO.Put_Line ("one too many");
   end;
   Free (Alone);
   Alone := new Cell'(Value => 3);
   Ada.Text_IO.Put_Line (Integer'Image (Alone.Value));
   Free (Alone);
end Main;
