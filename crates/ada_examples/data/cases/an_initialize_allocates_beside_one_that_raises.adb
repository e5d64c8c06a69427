with Ada.Finalization; with Ada.Text_IO; with Ada.Unchecked_Deallocation;
procedure Main is
   type Cell is record Value : Integer := 7; end record;
   type Link is access Cell;
   type Gate is new Ada.Finalization.Limited_Controlled with record Open : Boolean := False; end record;
   type Holder is new Ada.Finalization.Limited_Controlled with record Held : Link; end record;
   overriding procedure Initialize (Object : in out Gate);
   overriding procedure Initialize (Object : in out Holder);
   procedure Free is new Ada.Unchecked_Deallocation (Cell, Link);
   overriding procedure Initialize (Object : in out Gate) is
   begin
      if not Object.Open then
         raise Program_Error;
      end if;
   end Initialize;
   overriding procedure Initialize (Object : in out Holder) is
   begin
      Object.Held := new Cell;
   exception
      when Storage_Error => Ada.Text_IO.Put_Line ("no cell");
   end Initialize;
   H : Holder;
begin
   Free (H.Held);
end Main;
