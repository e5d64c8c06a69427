with Ada.Finalization; with Ada.Text_IO; with Ada.Unchecked_Deallocation;
procedure Main is
   type Cell is record Value : Integer := 7; end record;
   type Link is access Cell;
   type Holder is new Ada.Finalization.Limited_Controlled with record Held : Link; end record;
   overriding procedure Finalize (Object : in out Holder);
   procedure Free is new Ada.Unchecked_Deallocation (Cell, Link);
   procedure Tell is
      Fresh : Link := new Cell'(Value => 1);
   begin
      Ada.Text_IO.Put_Line (Integer'Image (Fresh.Value));
      Free (Fresh);
   exception
      when Storage_Error => Ada.Text_IO.Put_Line ("no room");
   end Tell;
   overriding procedure Finalize (Object : in out Holder) is
   begin
      Tell;
      Free (Object.Held);
   end Finalize;
   H : Holder;
begin
   H.Held := new Cell;
end Main;
