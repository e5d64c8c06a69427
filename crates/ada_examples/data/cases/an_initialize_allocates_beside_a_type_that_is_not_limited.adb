with Ada.Finalization; with Ada.Text_IO; with Ada.Unchecked_Deallocation;
procedure Main is
   type Cell is record Value : Integer := 7; end record;
   type Link is access Cell;
   type Mark is new Ada.Finalization.Controlled with record Number : Integer := 1; end record;
   type Holder is new Ada.Finalization.Limited_Controlled with record Held : Link; end record;
   overriding procedure Finalize (Object : in out Mark);
   overriding procedure Initialize (Object : in out Holder);
   procedure Free is new Ada.Unchecked_Deallocation (Cell, Link);
   overriding procedure Finalize (Object : in out Mark) is
   begin
      Ada.Text_IO.Put_Line (Integer'Image (Object.Number));
   end Finalize;
   overriding procedure Initialize (Object : in out Holder) is
   begin
      Object.Held := new Cell;
   exception
      when Storage_Error => Ada.Text_IO.Put_Line ("no cell");
   end Initialize;
   H : Holder;
begin
   Free (H.Held);
end Main;
