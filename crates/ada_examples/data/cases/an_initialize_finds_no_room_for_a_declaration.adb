with Ada.Finalization; with Ada.Text_IO; with Ada.Unchecked_Deallocation; with Profile_Pools;
procedure Main is
   type Cell is record Value : Integer := 7; end record;
   Room : Profile_Pools.First_Fit_Pool (5);
   type Link is access Cell with Storage_Pool => Room;
   type Holder is new Ada.Finalization.Limited_Controlled with record Held : Link; Full : Boolean := False; end record;
   overriding procedure Initialize (Object : in out Holder);
   overriding procedure Finalize (Object : in out Holder);
   procedure Free is new Ada.Unchecked_Deallocation (Cell, Link);
   overriding procedure Initialize (Object : in out Holder) is
   begin
      declare
         Made : Link := new Cell'(Value => 8);
      begin
         Object.Held := Made;
         Object.Full := True;
      exception
         when Storage_Error => Ada.Text_IO.Put_Line ("not here");
      end;
   exception
      when Storage_Error => Ada.Text_IO.Put_Line ("no room");
   end Initialize;
   overriding procedure Finalize (Object : in out Holder) is
   begin
      if Object.Full then
         Ada.Text_IO.Put_Line ("freed");
      end if;
      Free (Object.Held);
   end Finalize;
   First : Holder;
   Second : Holder;
begin
   if Second.Full then
      Ada.Text_IO.Put_Line ("both");
   else
      Ada.Text_IO.Put_Line (Integer'Image (First.Held.Value));
   end if;
   Free (First.Held);
   declare
      Third : Holder;
   begin
      Ada.Text_IO.Put_Line (Integer'Image (Third.Held.Value));
   end;
end Main;
