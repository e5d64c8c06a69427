with Ada.Finalization; with Ada.Text_IO; with Ada.Unchecked_Deallocation; with Profile_Pools;
procedure Main is
   Odd : exception;
   type Cell is record Value : Integer := 7; end record;
   Room : Profile_Pools.First_Fit_Pool (5);
   type Link is access Cell with Storage_Pool => Room;
   type Holder is new Ada.Finalization.Limited_Controlled with record Held : Link; end record;
   overriding procedure Initialize (Object : in out Holder);
   overriding procedure Finalize (Object : in out Holder);
   procedure Free is new Ada.Unchecked_Deallocation (Cell, Link);
   overriding procedure Initialize (Object : in out Holder) is
   begin
      Object.Held := new Cell;
      raise Odd;
   end Initialize;
   overriding procedure Finalize (Object : in out Holder) is
   begin
      Free (Object.Held);
      Ada.Text_IO.Put_Line ("never");
   end Finalize;
begin
   begin
      declare
         H : Holder;
      begin
         null;
      end;
   exception
      when Odd => Ada.Text_IO.Put_Line ("no object");
   end;
   declare
      Other : Link;
   begin
      Other := new Cell;
   end;
exception
   when Storage_Error => Ada.Text_IO.Put_Line ("its cell is there");
end Main;
